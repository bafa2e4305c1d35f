//! The words of a command line, and the jobs that they become.
use std::alloc::Global;
use std::test::Fail;
use tb_program_command_line::{Failure, job, room_for_screen};

/// The seed that the clock gives.
const CLOCK: u16 = 4711;

/// Words, and the job that they become.
static JOBS: [(&[&str], &str); 35] = [
    (
        &["build", "a", "b"],
        "Ok(Build(BuildJob { source: \"a\", out: \"b\", options: SourceOptions { seed: None, fit: false, notation: Plain }, beside: BuildExtras { labels: None, listing: None, dialect: None, map: None, watch: None }, force: false }))",
    ),
    (
        &["build", "f.d/a.bas"],
        "Ok(Build(BuildJob { source: \"f.d/a.bas\", out: \"f.d/a.prg\", options: SourceOptions { seed: None, fit: false, notation: Plain }, beside: BuildExtras { labels: None, listing: None, dialect: None, map: None, watch: None }, force: false }))",
    ),
    (
        &["build", "a.BAS"],
        "Ok(Build(BuildJob { source: \"a.BAS\", out: \"a.BAS.prg\", options: SourceOptions { seed: None, fit: false, notation: Plain }, beside: BuildExtras { labels: None, listing: None, dialect: None, map: None, watch: None }, force: false }))",
    ),
    (
        &["build", "a"],
        "Ok(Build(BuildJob { source: \"a\", out: \"a.prg\", options: SourceOptions { seed: None, fit: false, notation: Plain }, beside: BuildExtras { labels: None, listing: None, dialect: None, map: None, watch: None }, force: false }))",
    ),
    (
        &["build", "-"],
        "Ok(Build(BuildJob { source: \"-\", out: \"-\", options: SourceOptions { seed: None, fit: false, notation: Plain }, beside: BuildExtras { labels: None, listing: None, dialect: None, map: None, watch: None }, force: false }))",
    ),
    (
        &["build", "a", "-o", "b"],
        "Ok(Build(BuildJob { source: \"a\", out: \"b\", options: SourceOptions { seed: None, fit: false, notation: Plain }, beside: BuildExtras { labels: None, listing: None, dialect: None, map: None, watch: None }, force: false }))",
    ),
    (
        &["build", "-ob", "-"],
        "Ok(Build(BuildJob { source: \"-\", out: \"b\", options: SourceOptions { seed: None, fit: false, notation: Plain }, beside: BuildExtras { labels: None, listing: None, dialect: None, map: None, watch: None }, force: false }))",
    ),
    (
        &["build", "--seed", "65535", "a", "b"],
        "Ok(Build(BuildJob { source: \"a\", out: \"b\", options: SourceOptions { seed: Some(65535), fit: false, notation: Plain }, beside: BuildExtras { labels: None, listing: None, dialect: None, map: None, watch: None }, force: false }))",
    ),
    (
        &[
            "build", "a", "b", "--map=m", "--labels", "v", "--watch", "w", "--list", "s",
        ],
        "Ok(Build(BuildJob { source: \"a\", out: \"b\", options: SourceOptions { seed: None, fit: false, notation: Plain }, beside: BuildExtras { labels: Some(\"v\"), listing: Some(\"s\"), dialect: None, map: Some(\"m\"), watch: Some(\"w\") }, force: false }))",
    ),
    (
        &["build", "--fit", "a", "b"],
        "Ok(Build(BuildJob { source: \"a\", out: \"b\", options: SourceOptions { seed: None, fit: true, notation: Plain }, beside: BuildExtras { labels: None, listing: None, dialect: None, map: None, watch: None }, force: false }))",
    ),
    (
        &["run", "a"],
        "Ok(Run(RunJob { what: Source(\"a\"), settings: Settings { options: SourceOptions { seed: None, fit: false, notation: Plain }, keys: Digits(\"\"), answers: \"\", limit: Limit { events: 10000000 } }, rude: None, labels: None, strict: false }))",
    ),
    (
        &[
            "run",
            "a",
            "--keys",
            "330d",
            "--answers=00",
            "--limit",
            "1000000000",
            "--rude",
            "65535",
        ],
        "Ok(Run(RunJob { what: Source(\"a\"), settings: Settings { options: SourceOptions { seed: None, fit: false, notation: Plain }, keys: Digits(\"330d\"), answers: \"00\", limit: Limit { events: 1000000000 } }, rude: Some(65535), labels: None, strict: false }))",
    ),
    (
        &["run", "--prg", "p", "--seed", "0", "--limit", "1"],
        "Ok(Run(RunJob { what: Prg(\"p\"), settings: Settings { options: SourceOptions { seed: Some(0), fit: false, notation: Plain }, keys: Digits(\"\"), answers: \"\", limit: Limit { events: 1 } }, rude: None, labels: None, strict: false }))",
    ),
    (
        &["run", "--prg", "p", "--labels", "v"],
        "Ok(Run(RunJob { what: Prg(\"p\"), settings: Settings { options: SourceOptions { seed: None, fit: false, notation: Plain }, keys: Digits(\"\"), answers: \"\", limit: Limit { events: 10000000 } }, rude: None, labels: Some(\"v\"), strict: false }))",
    ),
    (
        &["run", "a", "--keys-file", "k", "--answers", "03"],
        "Ok(Run(RunJob { what: Source(\"a\"), settings: Settings { options: SourceOptions { seed: None, fit: false, notation: Plain }, keys: File(\"k\"), answers: \"03\", limit: Limit { events: 10000000 } }, rude: None, labels: None, strict: false }))",
    ),
    (
        &["play", "a"],
        "Ok(Play(PlayJob { what: Source(\"a\"), options: SourceOptions { seed: None, fit: false, notation: Plain }, limit: Limit { events: 1000000000 }, recording: None, transcript: None, screen: false, force: false, strict: false }))",
    ),
    (
        &[
            "play", "--prg=p", "--seed", "9", "--limit", "5", "--record", "r",
        ],
        "Ok(Play(PlayJob { what: Prg(\"p\"), options: SourceOptions { seed: Some(9), fit: false, notation: Plain }, limit: Limit { events: 5 }, recording: Some(\"r\"), transcript: None, screen: false, force: false, strict: false }))",
    ),
    (
        &["play", "a", "--fit"],
        "Ok(Play(PlayJob { what: Source(\"a\"), options: SourceOptions { seed: None, fit: true, notation: Plain }, limit: Limit { events: 1000000000 }, recording: None, transcript: None, screen: false, force: false, strict: false }))",
    ),
    (
        &["play", "--screen", "a"],
        "Ok(Play(PlayJob { what: Source(\"a\"), options: SourceOptions { seed: None, fit: false, notation: Plain }, limit: Limit { events: 1000000000 }, recording: None, transcript: None, screen: true, force: false, strict: false }))",
    ),
    (
        &["play", "a", "--transcript", "t", "--record", "r"],
        "Ok(Play(PlayJob { what: Source(\"a\"), options: SourceOptions { seed: None, fit: false, notation: Plain }, limit: Limit { events: 1000000000 }, recording: Some(\"r\"), transcript: Some(\"t\"), screen: false, force: false, strict: false }))",
    ),
    (
        &["play", "a", "--transcript=t", "--screen", "--force"],
        "Ok(Play(PlayJob { what: Source(\"a\"), options: SourceOptions { seed: None, fit: false, notation: Plain }, limit: Limit { events: 1000000000 }, recording: None, transcript: Some(\"t\"), screen: true, force: true, strict: false }))",
    ),
    (
        &["test", "a"],
        "Ok(Test(TestJob { files: [\"a\"], updates: false, counts_lines: false, page: None, form: Text, force: false }))",
    ),
    (
        &["test", "--update", "a.bas", "b.1.transcript", "c"],
        "Ok(Test(TestJob { files: [\"a.bas\", \"b.1.transcript\", \"c\"], updates: true, counts_lines: false, page: None, form: Text, force: false }))",
    ),
    (
        &["test", "a", "--lines", "--html", "h", "--force"],
        "Ok(Test(TestJob { files: [\"a\"], updates: false, counts_lines: true, page: Some(\"h\"), form: Text, force: true }))",
    ),
    (
        &["test", "a", "--lines", "--format", "tap"],
        "Ok(Test(TestJob { files: [\"a\"], updates: false, counts_lines: true, page: None, form: Tap, force: false }))",
    ),
    (
        &["test", "--format=text", "a"],
        "Ok(Test(TestJob { files: [\"a\"], updates: false, counts_lines: false, page: None, form: Text, force: false }))",
    ),
    (
        &["asm", "a", "b", "--at", "c00"],
        "Ok(Asm(AsmJob { text: \"a\", out: \"b\", at: \"c00\", force: false }))",
    ),
    (
        &["asm", "a", "-o", "b", "--at", "c00"],
        "Ok(Asm(AsmJob { text: \"a\", out: \"b\", at: \"c00\", force: false }))",
    ),
    (
        &["assemble", "a.asm"],
        "Ok(Assemble(AssembleJob { text: \"a.asm\", out: \"a.prg\", at: None, long: false, labels: None, listing: None, force: false }))",
    ),
    (
        &["assemble", "a", "b", "--at", "c00", "--labels", "v"],
        "Ok(Assemble(AssembleJob { text: \"a\", out: \"b\", at: Some(\"c00\"), long: false, labels: Some(\"v\"), listing: None, force: false }))",
    ),
    (
        &["assemble", "--long", "a"],
        "Ok(Assemble(AssembleJob { text: \"a\", out: \"a.prg\", at: None, long: true, labels: None, listing: None, force: false }))",
    ),
    (
        &["assemble", "-", "--list=s"],
        "Ok(Assemble(AssembleJob { text: \"-\", out: \"-\", at: None, long: false, labels: None, listing: Some(\"s\"), force: false }))",
    ),
    (
        &["build", "--petscii", "a"],
        "Ok(Build(BuildJob { source: \"a\", out: \"a.prg\", options: SourceOptions { seed: None, fit: false, notation: Signs }, beside: BuildExtras { labels: None, listing: None, dialect: None, map: None, watch: None }, force: false }))",
    ),
    (
        &["run", "a", "--petscii", "--fit"],
        "Ok(Run(RunJob { what: Source(\"a\"), settings: Settings { options: SourceOptions { seed: None, fit: true, notation: Signs }, keys: Digits(\"\"), answers: \"\", limit: Limit { events: 10000000 } }, rude: None, labels: None, strict: false }))",
    ),
    (
        &["play", "a", "--petscii", "--screen"],
        "Ok(Play(PlayJob { what: Source(\"a\"), options: SourceOptions { seed: None, fit: false, notation: Signs }, limit: Limit { events: 1000000000 }, recording: None, transcript: None, screen: true, force: false, strict: false }))",
    ),
];

/// The same, of commands that look at programs or at sources.
static TOOL_JOBS: [(&[&str], &str); 46] = [
    (&["dis", "a"], "Ok(Dis(DisJob { prg: \"a\", dialect: None }))"),
    (
        &["dis", "a", "--for", "64tass"],
        "Ok(Dis(DisJob { prg: \"a\", dialect: Some(Tass64) }))",
    ),
    (
        &["dis", "--for=ca65", "a"],
        "Ok(Dis(DisJob { prg: \"a\", dialect: Some(Ca65) }))",
    ),
    (
        &["dis", "--for", "acme", "-"],
        "Ok(Dis(DisJob { prg: \"-\", dialect: Some(Acme) }))",
    ),
    (
        &["build", "a", "b", "--list", "s", "--for", "xa"],
        "Ok(Build(BuildJob { source: \"a\", out: \"b\", options: SourceOptions { seed: None, fit: false, notation: Plain }, beside: BuildExtras { labels: None, listing: Some(\"s\"), dialect: Some(Xa), map: None, watch: None }, force: false }))",
    ),
    (
        &["debug", "a"],
        "Ok(Debug(DebugJob { what: Source(\"a\"), settings: Settings { options: SourceOptions { seed: None, fit: false, notation: Plain }, keys: Digits(\"\"), answers: \"\", limit: Limit { events: 10000000 } }, rude: None, labels: None }))",
    ),
    (
        &[
            "debug",
            "a",
            "--rude",
            "7",
            "--keys-file",
            "k",
            "--limit",
            "9",
        ],
        "Ok(Debug(DebugJob { what: Source(\"a\"), settings: Settings { options: SourceOptions { seed: None, fit: false, notation: Plain }, keys: File(\"k\"), answers: \"\", limit: Limit { events: 9 } }, rude: Some(7), labels: None }))",
    ),
    (
        &["debug", "--prg", "a", "--type", "b"],
        "Ok(Debug(DebugJob { what: Prg(\"a\"), settings: Settings { options: SourceOptions { seed: None, fit: false, notation: Plain }, keys: Text(\"b\"), answers: \"\", limit: Limit { events: 10000000 } }, rude: None, labels: None }))",
    ),
    (
        &["debug", "--labels=v", "--prg=a"],
        "Ok(Debug(DebugJob { what: Prg(\"a\"), settings: Settings { options: SourceOptions { seed: None, fit: false, notation: Plain }, keys: Digits(\"\"), answers: \"\", limit: Limit { events: 10000000 } }, rude: None, labels: Some(\"v\") }))",
    ),
    (
        &["profile", "a"],
        "Ok(Profile(ProfileJob { what: Source(\"a\"), settings: Settings { options: SourceOptions { seed: None, fit: false, notation: Plain }, keys: Digits(\"\"), answers: \"\", limit: Limit { events: 10000000 } }, rude: None, html: None, force: false }))",
    ),
    (
        &[
            "profile",
            "a",
            "--html",
            "p",
            "--keys-file=k",
            "--rude",
            "7",
            "--limit",
            "9",
        ],
        "Ok(Profile(ProfileJob { what: Source(\"a\"), settings: Settings { options: SourceOptions { seed: None, fit: false, notation: Plain }, keys: File(\"k\"), answers: \"\", limit: Limit { events: 9 } }, rude: Some(7), html: Some(\"p\"), force: false }))",
    ),
    (
        &["profile", "--prg=a", "--rude", "7"],
        "Ok(Profile(ProfileJob { what: Prg(\"a\"), settings: Settings { options: SourceOptions { seed: None, fit: false, notation: Plain }, keys: Digits(\"\"), answers: \"\", limit: Limit { events: 10000000 } }, rude: Some(7), html: None, force: false }))",
    ),
    (
        &["page", "d/a.bas"],
        "Ok(Page(PageJob { what: Source(\"d/a.bas\"), out: \"d/a.html\", options: SourceOptions { seed: None, fit: false, notation: Plain }, title: None, force: false }))",
    ),
    (
        &["page", "-", "--title", "-A", "--seed", "7", "--fit", "--petscii", "--force"],
        "Ok(Page(PageJob { what: Source(\"-\"), out: \"-\", options: SourceOptions { seed: Some(7), fit: true, notation: Signs }, title: Some(\"-A\"), force: true }))",
    ),
    (
        &["page", "a.prg", "b"],
        "Ok(Page(PageJob { what: Source(\"a.prg\"), out: \"b\", options: SourceOptions { seed: None, fit: false, notation: Plain }, title: None, force: false }))",
    ),
    (
        &["page", "a", "-o", "b"],
        "Ok(Page(PageJob { what: Source(\"a\"), out: \"b\", options: SourceOptions { seed: None, fit: false, notation: Plain }, title: None, force: false }))",
    ),
    (
        &["page", "--prg", "a.prg"],
        "Ok(Page(PageJob { what: Prg(\"a.prg\"), out: \"a.html\", options: SourceOptions { seed: None, fit: false, notation: Plain }, title: None, force: false }))",
    ),
    (
        &["page", "--prg", "a.bas", "b"],
        "Ok(Page(PageJob { what: Prg(\"a.bas\"), out: \"b\", options: SourceOptions { seed: None, fit: false, notation: Plain }, title: None, force: false }))",
    ),
    (
        &["page", "--prg=-", "-o", "b"],
        "Ok(Page(PageJob { what: Prg(\"-\"), out: \"b\", options: SourceOptions { seed: None, fit: false, notation: Plain }, title: None, force: false }))",
    ),
    (
        &["disk", "o", "a"],
        "Ok(Disk(DiskJob { out: \"o\", files: [\"a\"], force: false }))",
    ),
    (
        &["disk", "b", "-o", "o", "a"],
        "Ok(Disk(DiskJob { out: \"o\", files: [\"b\", \"a\"], force: false }))",
    ),
    (
        &["disk", "o", "--force", "a"],
        "Ok(Disk(DiskJob { out: \"o\", files: [\"a\"], force: true }))",
    ),
    (
        &["assemble", "a", "b", "--force"],
        "Ok(Assemble(AssembleJob { text: \"a\", out: \"b\", at: None, long: false, labels: None, listing: None, force: true }))",
    ),
    (
        &["disk", "o", "b", "--", "a", "-b"],
        "Ok(Disk(DiskJob { out: \"o\", files: [\"b\", \"a\", \"-b\"], force: false }))",
    ),
    (
        &["check", "a"],
        "Ok(Check(CheckJob { sources: [\"a\"], fit: false, notation: Plain }))",
    ),
    (
        &["format", "a"],
        "Ok(Format(FormatJob { source: \"a\", notation: Plain, target: Output }))",
    ),
    (
        &["format", "--in-place", "a"],
        "Ok(Format(FormatJob { source: \"a\", notation: Plain, target: InPlace }))",
    ),
    (
        &["format", "a", "--check"],
        "Ok(Format(FormatJob { source: \"a\", notation: Plain, target: Check }))",
    ),
    (
        &["renumber", "a"],
        "Ok(Renumber(RenumberJob { source: \"a\", notation: Plain, first: 10, step: 10, in_place: false }))",
    ),
    (
        &[
            "renumber",
            "--step",
            "32767",
            "--from",
            "1",
            "--in-place",
            "a",
        ],
        "Ok(Renumber(RenumberJob { source: \"a\", notation: Plain, first: 1, step: 32767, in_place: true }))",
    ),
    (&["lsp"], "Ok(Lsp(Plain))"),
    (&["dap"], "Ok(Dap(Plain))"),
    (
        &["step", "--petscii", "a"],
        "Ok(Step(StepJob { what: Source(\"a\"), settings: Settings { options: SourceOptions { seed: None, fit: false, notation: Signs }, keys: Digits(\"\"), answers: \"\", limit: Limit { events: 10000000 } } }))",
    ),
    (
        &["debug", "a", "--petscii"],
        "Ok(Debug(DebugJob { what: Source(\"a\"), settings: Settings { options: SourceOptions { seed: None, fit: false, notation: Signs }, keys: Digits(\"\"), answers: \"\", limit: Limit { events: 10000000 } }, rude: None, labels: None }))",
    ),
    (
        &["profile", "a", "--petscii"],
        "Ok(Profile(ProfileJob { what: Source(\"a\"), settings: Settings { options: SourceOptions { seed: None, fit: false, notation: Signs }, keys: Digits(\"\"), answers: \"\", limit: Limit { events: 10000000 } }, rude: None, html: None, force: false }))",
    ),
    (
        &["check", "--petscii", "a"],
        "Ok(Check(CheckJob { sources: [\"a\"], fit: false, notation: Signs }))",
    ),
    (
        &["format", "--petscii", "--check", "a"],
        "Ok(Format(FormatJob { source: \"a\", notation: Signs, target: Check }))",
    ),
    (
        &["renumber", "a", "--petscii"],
        "Ok(Renumber(RenumberJob { source: \"a\", notation: Signs, first: 10, step: 10, in_place: false }))",
    ),
    (&["lsp", "--petscii"], "Ok(Lsp(Signs))"),
    (&["dap", "--petscii"], "Ok(Dap(Signs))"),
    (
        &["check", "a", "b", "--", "-c"],
        "Ok(Check(CheckJob { sources: [\"a\", \"b\", \"-c\"], fit: false, notation: Plain }))",
    ),
    (
        &["step", "a", "--fit", "--seed", "2"],
        "Ok(Step(StepJob { what: Source(\"a\"), settings: Settings { options: SourceOptions { seed: Some(2), fit: true, notation: Plain }, keys: Digits(\"\"), answers: \"\", limit: Limit { events: 10000000 } } }))",
    ),
    (
        &["step", "--prg", "a", "--seed", "2", "--fit", "--type", "b"],
        "Ok(Step(StepJob { what: Prg(\"a\"), settings: Settings { options: SourceOptions { seed: Some(2), fit: true, notation: Plain }, keys: Text(\"b\"), answers: \"\", limit: Limit { events: 10000000 } } }))",
    ),
    (
        &["step", "a"],
        "Ok(Step(StepJob { what: Source(\"a\"), settings: Settings { options: SourceOptions { seed: None, fit: false, notation: Plain }, keys: Digits(\"\"), answers: \"\", limit: Limit { events: 10000000 } } }))",
    ),
    (
        &["step", "--keys-file=k", "a"],
        "Ok(Step(StepJob { what: Source(\"a\"), settings: Settings { options: SourceOptions { seed: None, fit: false, notation: Plain }, keys: File(\"k\"), answers: \"\", limit: Limit { events: 10000000 } } }))",
    ),
    (
        &[
            "step",
            "a",
            "--answers",
            "03",
            "--keys",
            "31",
            "--limit",
            "5",
            "--seed",
            "7",
        ],
        "Ok(Step(StepJob { what: Source(\"a\"), settings: Settings { options: SourceOptions { seed: Some(7), fit: false, notation: Plain }, keys: Digits(\"31\"), answers: \"03\", limit: Limit { events: 5 } } }))",
    ),
];

/// Words of scripts: the clock's seed, and runs that tell of faults.
static SCRIPT_JOBS: [(&[&str], &str); 6] = [
    (
        &["step", "a", "--seed", "1"],
        "Ok(Step(StepJob { what: Source(\"a\"), settings: Settings { options: SourceOptions { seed: Some(1), fit: false, notation: Plain }, keys: Digits(\"\"), answers: \"\", limit: Limit { events: 10000000 } } }))",
    ),
    (
        &["run", "a", "--seed", "time"],
        "Ok(Run(RunJob { what: Source(\"a\"), settings: Settings { options: SourceOptions { seed: Some(4711), fit: false, notation: Plain }, keys: Digits(\"\"), answers: \"\", limit: Limit { events: 10000000 } }, rude: None, labels: None, strict: false }))",
    ),
    (
        &["build", "a", "b", "--seed=time"],
        "Ok(Build(BuildJob { source: \"a\", out: \"b\", options: SourceOptions { seed: Some(4711), fit: false, notation: Plain }, beside: BuildExtras { labels: None, listing: None, dialect: None, map: None, watch: None }, force: false }))",
    ),
    (
        &["step", "a", "--seed", "time"],
        "Ok(Step(StepJob { what: Source(\"a\"), settings: Settings { options: SourceOptions { seed: Some(4711), fit: false, notation: Plain }, keys: Digits(\"\"), answers: \"\", limit: Limit { events: 10000000 } } }))",
    ),
    (
        &["run", "--strict", "a", "--seed", "0"],
        "Ok(Run(RunJob { what: Source(\"a\"), settings: Settings { options: SourceOptions { seed: Some(0), fit: false, notation: Plain }, keys: Digits(\"\"), answers: \"\", limit: Limit { events: 10000000 } }, rude: None, labels: None, strict: true }))",
    ),
    (
        &["play", "a", "--strict", "--seed", "time"],
        "Ok(Play(PlayJob { what: Source(\"a\"), options: SourceOptions { seed: Some(4711), fit: false, notation: Plain }, limit: Limit { events: 1000000000 }, recording: None, transcript: None, screen: false, force: false, strict: true }))",
    ),
];

/// Words that are refused.
static REFUSED: [&[&str]; 80] = [
    &["run", "a", "--seed", "noon"],
    &["run", "a", "--seed", "TIME"],
    &["run", "a", "--seed", ""],
    &["play", "a", "--rude", "time"],
    &["run", "--prg", "p", "--strict"],
    &["play", "--prg", "p", "--strict"],
    &["play", "a", "--strict", "--screen"],
    &["run", "a", "--strict=yes"],
    &["debug", "a", "--strict"],
    &["run", "a", "--petscii=yes"],
    &["dis", "a", "--petscii"],
    &["renumber", "a", "--from", "0"],
    &["renumber", "a", "--step", "32768"],
    &["renumber", "--in-place"],
    &["format"],
    &["format", "a", "--check", "--in-place"],
    &[],
    &["run", "a", "--fit=yes"],
    &["dis", "a", "--fit"],
    &["jump"],
    &["step", "a", "--prg", "b"],
    &["profile", "a", "--prg", "b"],
    &["profile", "--prg", "a", "--html", "b"],
    &["run"],
    &["run", "a", "--prg", "b"],
    &["run", "a", "b"],
    &["page"],
    &["page", "a", "b", "c"],
    &["page", "a", "b", "-o", "c"],
    &["page", "--prg", "p", "a", "b"],
    &["page", "--prg", "p", "a", "-o", "b"],
    &["page", "a", "--title"],
    &["run", "a", "--labels", "v"],
    &["run", "--prg", "p", "--labels"],
    &["debug", "a", "--labels", "v"],
    &["step", "--prg", "p", "--labels", "v"],
    &["profile", "--prg", "p", "--labels", "v"],
    &["run", "a", "--limit", "0"],
    &["run", "a", "--limit", "1000000001"],
    &["run", "a", "--seed", "65536"],
    &["run", "a", "--seed", "-1"],
    &["run", "a", "--rude", "65536"],
    &["asm", "a", "b"],
    &["asm", "a", "--at", "c000"],
    &["assemble"],
    &["assemble", "a", "b", "-o", "c"],
    &["assemble", "a", "--long=yes"],
    &["asm", "a", "b", "--at", "c000", "--long"],
    &["dis"],
    &["build"],
    &["build", "a", "b", "c"],
    &["build", "a", "b", "-o", "c"],
    &["asm", "a", "b", "-o", "c", "--at", "c000"],
    &["disk", "a"],
    &["build", "a", "b", "--keys", "31"],
    &["step", "a", "--rude", "1"],
    &["step", "a", "--keys-file", "k", "--keys", "31"],
    &["run", "a", "--keys", "", "--keys-file", "k"],
    &["play"],
    &["play", "a", "--prg", "b"],
    &["play", "a", "--keys", "31"],
    &["play", "a", "--answers", "03"],
    &["play", "a", "--limit", "1000000001"],
    &["play", "a", "--record"],
    &["play", "a", "--screen=yes"],
    &["run", "a", "--screen"],
    &["play", "a", "--transcript"],
    &["play", "--prg", "p", "--transcript", "t"],
    &["test"],
    &["test", "a", "--html", "h"],
    &["test", "a", "--html"],
    &["test", "a", "--lines=yes"],
    &["test", "a", "--format"],
    &["test", "a", "--format", "TAP"],
    &["test", "a", "--seed", "7"],
    &["run", "a", "--transcript", "t"],
    &["dap", "a"],
    &["lsp", "a"],
    &["check"],
    &["check", "a", "--seed", "1"],
];

/// Words that ask for a text, and how it begins.
static TEXTS: [(&[&str], &str); 6] = [
    (&["--help"], "Ok(Show(\"Compiles Tiny BASIC"),
    (&["-h"], "Ok(Show(\"Compiles Tiny BASIC"),
    (
        &["run", "--help"],
        "Ok(Show(\"Run a source or a PRG file",
    ),
    (
        &["play", "-h"],
        "Ok(Show(\"Play a source or a PRG file",
    ),
    (
        &["check", "--help"],
        "Ok(Show(\"Show everything that is wrong",
    ),
    (&["--version"], "Ok(Show(\"tbc "),
];

// What becomes of words, as a text.
fn shown(alloc: Global, words: &[&str]) -> Result<String, Fail> {
    let job = job(alloc, words, Some(CLOCK)).map(|asked| asked.job);
    Ok(format!(in alloc; "{job:?}")?)
}

// Whether words ask for the clock's seed.
fn is_by_clock(alloc: Global, words: &[&str]) -> Result<bool, Fail> {
    match job(alloc, words, Some(CLOCK)) {
        Ok(asked) => Ok(asked.is_by_clock),
        Err(_) => Ok(false),
    }
}

fn becomes(alloc: Global, words: &[&str], wanted: &str) -> Result<bool, Fail> {
    Ok(shown(alloc, words)?.as_str() == wanted)
}

fn begins(alloc: Global, words: &[&str], beginning: &str) -> Result<bool, Fail> {
    Ok(
        shown(alloc, words)?
            .as_bytes()
            .starts_with(beginning.as_bytes()),
    )
}

#[test]
fn words_become_jobs(rt: HostRuntime) -> Result<(), Fail> {
    for &(words, wanted) in &JOBS {
        assert!(rt; becomes(rt.alloc(), words, wanted)?, "{words:?}");
    }
    Ok(())
}

#[test]
fn words_of_tools_become_jobs(rt: HostRuntime) -> Result<(), Fail> {
    for &(words, wanted) in &TOOL_JOBS {
        assert!(rt; becomes(rt.alloc(), words, wanted)?, "{words:?}");
    }
    Ok(())
}

#[test]
fn words_of_scripts_become_jobs(rt: HostRuntime) -> Result<(), Fail> {
    for &(words, wanted) in &SCRIPT_JOBS {
        assert!(rt; becomes(rt.alloc(), words, wanted)?, "{words:?}");
    }
    Ok(())
}

#[test]
fn the_clock_gives_a_seed_that_is_asked_for(rt: HostRuntime) -> Result<(), Fail> {
    let rows: [(&[&str], bool); 5] = [
        (&["play", "a", "--seed", "time"], true),
        (&["run", "--prg", "p", "--seed=time"], true),
        (&["play", "a", "--seed", "4711"], false),
        (&["play", "time"], false),
        (&["run", "a", "--type", "time"], false),
    ];
    for (words, wanted) in rows {
        assert_eq!(rt; is_by_clock(rt.alloc(), words)?, wanted);
    }
    let unread = job(rt.alloc(), &["run", "a", "--seed", "time"], None);
    assert_eq!(rt; format!(in rt.alloc(); "{unread:?}")?.as_str(), "Err(NoClock)");
    assert!(rt; job(rt.alloc(), &["run", "a", "--seed", "9"], None).is_ok());
    Ok(())
}

#[test]
fn words_that_are_refused(rt: HostRuntime) -> Result<(), Fail> {
    for &words in &REFUSED {
        assert!(rt;
            begins(rt.alloc(), words, "Err(Words(\"error: ")?,
            "{words:?}"
        );
    }
    Ok(())
}

#[test]
fn help_is_shown(rt: HostRuntime) -> Result<(), Fail> {
    for &(words, beginning) in &TEXTS {
        assert!(rt; begins(rt.alloc(), words, beginning)?, "{words:?}");
    }
    Ok(())
}

#[test]
fn failures_have_their_texts(rt: HostRuntime) -> Result<(), Fail> {
    let text = String::from_str(rt.alloc(), "error: no\n")?;
    let path = String::from_str(rt.alloc(), "b.bas")?;
    let rows: [(Failure, u8, &[u8]); 12] = [
        (Failure::Words(text), 2, b"error: no\n"),
        (Failure::NotUtf8, 2, b"tbc: an argument is not UTF-8\n"),
        (Failure::BadKeys, 2, b"tbc: bad key list\n"),
        (Failure::BadAddress, 2, b"tbc: bad address\n"),
        (Failure::SameFile, 2, b"tbc: same file twice\n"),
        (Failure::IsSource(path), 2, b"tbc: b.bas is a source\n"),
        (Failure::BadLabels(7), 1, b"tbc: bad labels\n"),
        (Failure::NoTerminal, 2, b"tbc: not a terminal\n"),
        (
            Failure::SmallTerminal,
            2,
            b"tbc: terminal smaller than 40 by 25\n",
        ),
        (Failure::ReadFault, 3, b"tbc: read fault\n"),
        (Failure::NoClock, 3, b"tbc: no clock\n"),
        (Failure::NoMemory, 4, b"tbc: out of memory\n"),
    ];
    for (failure, status, said) in rows {
        assert_eq!(rt; failure.status(), status);
        assert_eq!(rt; format!(in rt.alloc(); "{failure}")?.as_bytes(), said);
    }
    Ok(())
}

// What is said where standard output is a terminal or none, of so many columns and lines.
fn said_of(
    alloc: Global,
    is_terminal: bool,
    columns: Option<usize>,
    lines: Option<usize>,
) -> Result<String, Fail> {
    Ok(match room_for_screen(is_terminal, columns, lines) {
        Ok(()) => String::new(alloc),
        Err(failure) => format!(in alloc; "{failure}")?,
    })
}

#[test]
fn a_screen_wants_a_terminal_of_40_by_25(rt: HostRuntime) -> Result<(), Fail> {
    let small = "tbc: terminal smaller than 40 by 25\n";
    let rows: [(bool, Option<usize>, Option<usize>, &str); 8] = [
        (true, None, None, ""),
        (true, Some(40), Some(25), ""),
        (true, Some(200), None, ""),
        (true, Some(39), Some(25), small),
        (true, Some(40), Some(24), small),
        (true, None, Some(0), small),
        (false, None, None, "tbc: not a terminal\n"),
        (false, Some(39), Some(24), "tbc: not a terminal\n"),
    ];
    for (is_terminal, columns, lines, said) in rows {
        assert_eq!(rt;
            said_of(rt.alloc(), is_terminal, columns, lines)?.as_str(),
            said
        );
    }
    Ok(())
}
