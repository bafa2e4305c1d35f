//! Sources and all that they show, in host form: `{XX}` for a byte that is neither from 32 to 90 nor a new line.
use std::alloc::Global;
use std::test::Fail;
use tb_codegen::TinyBasic;
use tb_compiled::{CompileSettings, Notation, SizeLimit};
use tb_driver::{Tracked, run_prg};
use tb_engines::RunSettings;
use tb_kernal::Quiet;
use tb_engine_sources::{SourceRun, read_source};
use tb_test_support::keyboard_of;

/// How many events a run takes at most.
const LIMIT: u64 = 2_000_000;

/// A source, and what it shows.
type Row = (&'static str, &'static str);

static ROWS: [Row; 51] = [
    // Each name is its byte.
    ("10 PRINT \"{clr}\"\n20 END\n", "{93}\n"),
    ("10 PRINT \"{home}\"\n20 END\n", "{13}\n"),
    ("10 PRINT \"{down}{up}\"\n20 END\n", "{11}{91}\n"),
    ("10 PRINT \"{left}{rght}\"\n20 END\n", "{9D}{1D}\n"),
    ("10 PRINT \"{rvon}A{rvof}\"\n20 END\n", "{12}A{92}\n"),
    (
        "10 PRINT \"{blk}{wht}{red}{cyn}\"\n20 END\n",
        "{90}{05}{1C}{9F}\n",
    ),
    (
        "10 PRINT \"{pur}{grn}{blu}{yel}\"\n20 END\n",
        "{9C}{1E}{1F}{9E}\n",
    ),
    (
        "10 PRINT \"{orng}{brn}{lred}{gry1}\"\n20 END\n",
        "{81}{95}{96}{97}\n",
    ),
    (
        "10 PRINT \"{gry2}{lgrn}{lblu}{gry3}\"\n20 END\n",
        "{98}{99}{9A}{9B}\n",
    ),
    ("10 PRINT \"{swlc}{swuc}\"\n20 END\n", "{0E}{8E}\n"),
    ("10 PRINT \"{del}{inst}\"\n20 END\n", "{14}{94}\n"),
    // In either case.
    ("10 print \"{CLR}{Home}{rVoN}\"\n20 end\n", "{93}{13}{12}\n"),
    // So many times.
    ("10 PRINT \"{3 down}\"\n20 END\n", "{11}{11}{11}\n"),
    ("10 PRINT \"A{1 up}B{02 UP}\"\n20 END\n", "A{91}B{91}{91}\n"),
    // Two digits are a byte, which is not folded.
    ("10 PRINT \"{41}{c1}{C1}{fF}\"\n20 END\n", "A{C1}{C1}{FF}\n"),
    ("10 PRINT \"a{61}{7a}\"\n20 END\n", "A{61}{7A}\n"),
    (
        "10 PRINT \"{00}{0A}{7B}{7D}\"\n20 END\n",
        "{00}{0A}{7B}{7D}\n",
    ),
    ("10 PRINT \"{20}{20}.\"\n20 END\n", "  .\n"),
    // Brackets are themselves.
    ("10 PRINT \"[A]\"\n20 END\n", "{5B}A{5D}\n"),
    (
        "10 PRINT \"[[{rvon}]]\"\n20 END\n",
        "{5B}{5B}{12}{5D}{5D}\n",
    ),
    // What is no sign is as ever.
    (
        "10 PRINT \"HELLO, world 1?\"\n20 END\n",
        "HELLO, WORLD 1?\n",
    ),
    ("10 PRINT \"\"\n20 END\n", "\n"),
    ("10 A=5\n20 PR\"A=\";A\n30 END\n", "A=5\n"),
    // Outside texts nothing changes, and a remark holds anything.
    ("10 REM {clr} [x] {nothing\n20 PRINT 7\n30 END\n", "7\n"),
    // The column counts bytes since the last 13, so a cursor move counts.
    ("10 PRINT \"{clr}A\",5\n20 END\n", "{93}A      5\n"),
    ("10 PRINT \"{3 down}\",5\n20 END\n", "{11}{11}{11}     5\n"),
    (
        "10 PRINT \"{clr}\";\n20 PRINT \"A\",5\n30 END\n",
        "{93}A      5\n",
    ),
    (
        "10 PRINT \"{clr}\"\n20 PRINT \"A\",5\n30 END\n",
        "{93}\nA       5\n",
    ),
    // Several texts in a line, and texts after conditions.
    (
        "10 PRINT \"{red}A\";1;\"{blu}B\";2\n20 END\n",
        "{1C}A1{1F}B2\n",
    ),
    ("10 IF 1<2 PRINT \"{wht}Y\"\n20 END\n", "{05}Y\n"),
    // A line that is replaced or taken out shows nothing.
    ("10 PRINT \"{red}\"\n10 PRINT \"{grn}\"\n20 END\n", "{1E}\n"),
    ("10 PRINT \"{red}\"\n20 END\n10\n", ""),
    // The remark begins after a text with the letters of REM in it.
    ("10 PRINT \"REM{home}\"\n20 END\n", "REM{13}\n"),
    // All names in one text.
    (
        "10 PRINT \"{blk}{wht}{red}{cyn}{pur}{grn}{blu}{yel}{orng}{brn}{lred}{gry1}{gry2}{lgrn}{lblu}{gry3}\"\n20 PRINT \"{clr}{home}{down}{up}{left}{rght}{rvon}{rvof}{swlc}{swuc}{del}{inst}\"\n30 END\n",
        "{90}{05}{1C}{9F}{9C}{1E}{1F}{9E}{81}{95}{96}{97}{98}{99}{9A}{9B}\n{93}{13}{11}{91}{9D}{1D}{12}{92}{0E}{8E}{14}{94}\n",
    ),
    // Digits alone are a byte, and digits before a name are a count.
    (
        "10 PRINT \"{10}{10 down}\"\n20 END\n",
        "{10}{11}{11}{11}{11}{11}{11}{11}{11}{11}{11}\n",
    ),
    (
        "10 PRINT \"{ed}{red}{20}{2 up}\"\n20 END\n",
        "{ED}{1C} {91}{91}\n",
    ),
    // Bytes that no key of a host types.
    (
        "10 PRINT \"{5b}{5c}{5D}{5e}{5f}{60}\"\n20 END\n",
        "{5B}{5C}{5D}{5E}{5F}{60}\n",
    ),
    ("10 PRINT \"{27}{2c}{2d}{3b}\"\n20 END\n", "',-;\n"),
    (
        "10 PRINT \"{0e}Hello {c8}i\"\n20 END\n",
        "{0E}HELLO {C8}I\n",
    ),
    // The zones of commas.
    (
        "10 PRINT \"{8 wht}\",\"A\"\n20 END\n",
        "{05}{05}{05}{05}{05}{05}{05}{05}        A\n",
    ),
    (
        "10 PRINT \"{red}\";-5;\"{lblu}\",1\n20 END\n",
        "{1C}-5{9A}    1\n",
    ),
    (
        "10 PRINT \"{clr}\",\n20 PRINT \"X\"\n30 END\n",
        "{93}       X\n",
    ),
    ("10 PRINT \"AB{del}\",1\n20 END\n", "AB{14}     1\n"),
    // Signs between numbers.
    (
        "10 PRINT \"{rvon}\";3*4+1;\"{rvof} OK\"\n20 END\n",
        "{12}13{92} OK\n",
    ),
    (
        "10 PR \"{home}\";\"{2 rght}\";\"X\"\n20 END\n",
        "{13}{1D}{1D}X\n",
    ),
    // Loops, calls and conditions.
    (
        "10 I=3\n20 PRINT \"{rvon}\";I;\"{rvof}\";\n30 I=I-1\n40 IF I>0 GOTO 20\n50 END\n",
        "{12}3{92}{12}2{92}{12}1{92}",
    ),
    (
        "10 GOSUB 100\n20 PRINT \"{lblu}B\"\n30 END\n100 PRINT \"{yel}A\";\n110 RETURN\n",
        "{9E}A{9A}B\n",
    ),
    (
        "10 LET A=2\n20 IF A=2 THEN PRINT \"{grn}TWO\"\n30 IF A=3 THEN PRINT \"{red}THREE\"\n40 END\n",
        "{1E}TWO\n",
    ),
    // Lines in the order of their numbers, and lines that end with 13 and 10.
    (
        "20 PRINT \"{blu}2\"\n10 PRINT \"{red}1\"\n30 END\n",
        "{1C}1\n{1F}2\n",
    ),
    ("10 PRINT \"{cyn}[\"\r\n20 END\r\n", "{9F}{5B}\n"),
    // A fault is told as ever.
    ("10 PRINT \"{red}\";1/0\n20 END\n", "{1C}\n!2 AT 10\n"),
];

/// A source, what is typed, and what it shows.
type TypedRow = (&'static str, &'static [u8], &'static str);

static TYPED: [TypedRow; 3] = [
    (
        "10 PRINT \"{yel}HOW MANY\";\n20 INPUT N\n30 PRINT \"{rvon}\";N*2\n40 END\n",
        b"21\r",
        "{9E}HOW MANY? \n{12}42\n",
    ),
    (
        "10 INPUT A,B\n20 IF A>B PRINT \"{lgrn}A\"\n30 IF A<B PRINT \"{lred}B\"\n40 END\n",
        b"3,4\r",
        "? \n{96}B\n",
    ),
    (
        "10 PRINT \"{clr}\";\n20 INPUT A\n30 PRINT \"{3 down}[\";-A;\"]\"\n40 END\n",
        b"-7\r",
        "{93}? \n{11}{11}{11}{5B}7{5D}\n",
    ),
];

/// Sources that show themselves by the names of their signs where they are run as sources, and what they show.
static NAMED: [Row; 5] = [
    (
        "10 PRINT \"{blk}{wht}{red}{cyn}{pur}{grn}{blu}{yel}{orng}{brn}{lred}{gry1}{gry2}{lgrn}{lblu}{gry3}\"\n20 END\n",
        "{blk}{wht}{red}{cyn}{pur}{grn}{blu}{yel}{orng}{brn}{lred}{gry1}{gry2}{lgrn}{lblu}{gry3}\n",
    ),
    (
        "10 PRINT \"{clr}{home}{down}{up}{left}{rght}{rvon}{rvof}{swlc}{swuc}{del}{inst}\"\n20 END\n",
        "{clr}{home}{down}{up}{left}{rght}{rvon}{rvof}{swlc}{swuc}{del}{inst}\n",
    ),
    (
        "10 PRINT \"{CLR}{2 down}[A]{c1}b{61}{7B}{00}{93}\"\n20 END\n",
        "{clr}{down}{down}[A]{C1}B{61}{7B}{00}{clr}\n",
    ),
    (
        "10 PRINT \"{rvon}\";7;\"{rvof}\",1\n20 END\n",
        "{rvon}7{rvof}     1\n",
    ),
    ("10 PRINT \"{red}\";1/0\n20 END\n", "{red}\n!2 AT 10\n"),
];

// Texts of sources have signs.
fn with_signs() -> CompileSettings {
    CompileSettings {
        seed: 1,
        size: SizeLimit::Cost,
        notation: Notation::Signs,
    }
}

/// Whether the PRG file of a source shows that if these keys are typed, and the run is done.
pub fn shows(alloc: Global, source: &str, keys: &[u8], shown: &str) -> Result<bool, Fail> {
    let mut reader = Tracked::new(source.as_bytes());
    let Ok(compiled) = read_source(&TinyBasic, alloc, &mut reader, with_signs()) else {
        return Ok(false);
    };
    let mut file = Tracked::new(compiled.program.prg());
    let mut writer = Tracked::new(Vec::new(alloc));
    let keyboard = keyboard_of(alloc, keys, b"")?;
    let outcome = run_prg(alloc, &mut file, &mut writer, keyboard, LIMIT, &mut Quiet);
    Ok(writer.stream.as_slice() == shown.as_bytes() && outcome.status() == 0)
}

// Whether a source shows that where it is run as a source.
fn shows_by_names(alloc: Global, source: &str, shown: &str) -> Result<bool, Fail> {
    let mut reader = Tracked::new(source.as_bytes());
    let mut writer = Tracked::new(Vec::new(alloc));
    let job = SourceRun {
        settings: with_signs(),
        run: RunSettings {
            keyboard: keyboard_of(alloc, b"", b"")?,
            limit: LIMIT,
        },
    };
    let report = job.run_within(&TinyBasic, alloc, &mut reader, &mut writer, &mut Quiet);
    Ok(writer.stream.as_slice() == shown.as_bytes() && report.outcome.status() == 0)
}

#[test]
fn a_run_of_a_source_shows_its_signs_by_their_names(rt: HostRuntime) -> Result<(), Fail> {
    for row in &NAMED {
        assert!(rt; shows_by_names(rt.alloc(), row.0, row.1)?);
    }
    Ok(())
}

#[test]
fn sources_show_the_bytes_of_their_signs(rt: HostRuntime) -> Result<(), Fail> {
    for row in &ROWS {
        assert!(rt; shows(rt.alloc(), row.0, b"", row.1)?);
    }
    Ok(())
}

#[test]
fn sources_that_take_input_show_the_bytes_of_their_signs(rt: HostRuntime) -> Result<(), Fail> {
    for row in &TYPED {
        assert!(rt; shows(rt.alloc(), row.0, row.1, row.2)?);
    }
    Ok(())
}
