//! A machine that goes wrong. No program that is compiled makes it so: the bytes of one are spoiled.
use serde_json::Value;
use std::alloc::Global;
use std::test::Fail;
use tb_dap_values::{Command, Movement};
use tb_dap_views::SourceFile;
use tb_codegen::compile_within;
use tb_compiled::{CompileSettings, Compiled, Notation, SizeLimit};
use tb_debug::{Debugger, Rom};
use tb_dap_adapter::{Plan, Said, Session, Stage};
use tb_engines::start_file;
use tb_kernal::{Keyboard, Machine};
use tb_basic_names::read_source;

const SOURCE: &[u8] = b"10 LET A=1\n20 LET A=2\n";

const SETTINGS: CompileSettings = CompileSettings {
    seed: 1,
    size: SizeLimit::Cost,
    notation: Notation::Plain,
};

// The machine of a program whose line 20 begins with an opcode that is unknown, and where that is.
fn spoiled(alloc: Global, program: &Compiled) -> Result<(Machine, u16), Fail> {
    let Some(place) = program.start_of(20) else {
        return Err("the program has no line 20")?;
    };
    let mut file = Vec::from_slice(alloc, program.prg())?;
    if let Some(byte) = file.get_mut(usize::from(place).saturating_sub(0x07FF)) {
        *byte = 0x02;
    }
    let keyboard = Keyboard {
        text: Vec::new(alloc),
        answers: Vec::new(alloc),
    };
    match start_file(alloc, &file, keyboard) {
        Ok(machine) => Ok((machine, place)),
        Err(_) => Err("the program doesn't start")?,
    }
}

// A member of what the first event of a name tells.
fn told<'a>(said: &'a [Said], wanted: &str, member: &str) -> Option<&'a Value> {
    for one in said {
        if let Said::Event {
            name,
            body: Some(body),
        } = one
        {
            if *name == wanted {
                return body.get(member);
            }
        }
    }
    None
}

// The same, if it is a text.
fn told_text<'a>(said: &'a [Said], wanted: &str, member: &str) -> Option<&'a str> {
    told(said, wanted, member)?.as_str()
}

#[test]
fn a_wrong_machine_stops_and_ends_with_its_code(rt: HostRuntime) -> Result<(), Fail> {
    let alloc = rt.alloc();
    let Ok(program) = compile_within(alloc, SOURCE, SETTINGS) else {
        return Err("the program isn't compiled")?;
    };
    let (machine, place) = spoiled(alloc, &program)?;
    let mut session = Session {
        file: SourceFile {
            path: "t.bas",
            source: read_source(alloc, Notation::Plain, SOURCE)?,
            program: &program,
        },
        debugger: Debugger::new(alloc, &program, machine, Rom::Quiet)?,
        plan: Plan {
            limit: 10_000,
            stops_on_entry: false,
            is_plain: false,
            drawn: None,
        },
        stage: Stage::Loaded,
        typed: 0,
        steps: false,
    };
    let null = Value::Null;
    let said = session.take(alloc, Some(Command::ConfigurationDone), &null)?;
    let why = format!(in alloc; "wrong: unknown opcode at {place:04X}")?;
    assert_eq!(rt; told_text(&said, "stopped", "reason"), Some("end"));
    assert_eq!(rt;
        told_text(&said, "stopped", "description"),
        Some(why.as_str())
    );
    let said = session.take(alloc, Some(Command::Move(Movement::StepBack)), &null)?;
    assert_eq!(rt; told_text(&said, "stopped", "reason"), Some("step"));
    let said = session.take(alloc, Some(Command::Move(Movement::Continue)), &null)?;
    assert_eq!(rt;
        told_text(&said, "stopped", "description"),
        Some(why.as_str())
    );
    let said = session.take(alloc, Some(Command::Move(Movement::Next)), &null)?;
    assert_eq!(rt;
        told(&said, "exited", "exitCode").and_then(|code| code.as_u64()),
        Some(7)
    );
    assert_eq!(rt; session.stage, Stage::Terminated);
    Ok(())
}
