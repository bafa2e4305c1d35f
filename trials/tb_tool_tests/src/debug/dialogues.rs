//! Dialogues, in which each answer is awaited before the next command.
use crate::debug::awaiting::{AwaitingReader, WatchedWriter};
use crate::debug::programs::{ASKS, DRAWS, FAULTS, FOREVER, LOOP, NESTS, RUNS_PAST};
use crate::debug::streams::{debugs, debugs_at_terminal, source_of};
use std::alloc::{AllocError, Global};
use std::cell::Cell;
use std::test::Fail;
use tb_debug_engine::Streams;
use tb_engines::Outcome;
use tb_engine_streams::Tracked;

// In a dialogue each command follows `> `, and the other lines are answered.

const LINES_FORTH_AND_BACK: &str = "10 LET A=3
> n
20 PRINT A
> n
| 3
30 LET A=A-1
> p
20 PRINT A
> n
| 3
30 LET A=A-1
> n 3
| 2
30 LET A=A-1
> p 9
10 LET A=3
> n 99
| 3
| 2
| 1
returned
> p
50 END
> n
returned
> n
returned
> p 2
40 IF A>0 GOTO 20
> t 4
20 PRINT A
> t 99
| 2
| 1
returned
> o
| 3
| 2
| 1
> p 0
returned
> t 0
10 LET A=3
> p
10 LET A=3
> o
none
> n 0
10 LET A=3
> q
";

const BREAKPOINTS: &str = "10 LET A=3
> b
none
> b 30
set
> b 31
no such line
> b 99999
no such line
> b 20
set
> b
20 PRINT A
30 LET A=A-1
> c
20 PRINT A
> c
| 3
30 LET A=A-1
> c
20 PRINT A
> b 20
cleared
> c
| 2
30 LET A=A-1
> rc
30 LET A=A-1
> rc
10 LET A=3
> g 50
| 3
| 2
| 1
50 END
> rc
30 LET A=A-1
> n 9
returned
> c
returned
> rc
30 LET A=A-1
> g 31
no such line
";

const WATCHES: &str = "10 LET A=3
> w a
set
> c
20 PRINT A
> c
| 3
40 IF A>0 GOTO 20
> rc
30 LET A=A-1
> rc
10 LET A=3
> rc
10 LET A=3
> g 50
| 3
| 2
| 1
50 END
> rc
30 LET A=A-1
> v A
A=1
> w A
cleared
> rc
10 LET A=3
> w AB
what?
> w
what?
";

const A_WATCH_FROM_WITHIN_A_LINE: &str = "10 LET A=3
> w A
set
> s 6
10 LET A=3
> v A
A=3
> c
20 PRINT A
> s
20 PRINT A
> rc
10 LET A=3
";

const A_BREAKPOINT_IN_A_SUBROUTINE: &str = "10 LET N=4
> b 140
set
> b 110
set
> c
110 LET S=S+N
> r
30 PRINT \"DONE \";S
> c
110 LET S=S+N
> r
140 PRINT S
30 PRINT \"DONE \";S
> v
N=3
S=4
> e S*10+N
43
> b 110
cleared
> c
140 PRINT S
> e 1/(N-N)
division by zero
> e RND(5)
has RND
> e 1+
what?
> w S
set
> rc
110 LET S=S+N
> v S
S=9
> l
  10 LET N=4
  20 GOSUB 100
  30 PRINT \"DONE \";S
  40 END
  100 IF N=0 RETURN
* 110 LET S=S+N
  120 LET N=N-1
  130 GOSUB 100
  140 PRINT S
  150 RETURN
> t 3
110 LET S=S+N
> v S
S=0
";

const OVER_AND_OUT: &str = "10 LET N=4
> j
20 GOSUB 100
> over
| 10
| 10
| 10
| 10
30 PRINT \"DONE \";S
> p
150 RETURN
> u
30 PRINT \"DONE \";S
> t 6
100 IF N=0 RETURN
> finish
| 10
| 10
| 10
140 PRINT S
> b 140
set
> t 5
130 GOSUB 100
> j
140 PRINT S
> r
140 PRINT S
140 PRINT S
140 PRINT S
30 PRINT \"DONE \";S
> b 140
cleared
> u
| 10
140 PRINT S
> 
| 10
140 PRINT S
> j
| 10
150 RETURN
> 
140 PRINT S
> u
| 10
30 PRINT \"DONE \";S
> u
| DONE 10
returned
> j
returned
> j 2
what?
> overs
what?
> finish 1
what?
> q
";

const OUT_TO_A_FAULT: &str = "10 LET A=2
> f
stops at faults
> u
| 3
| 6
20 PRINT 6/A
> u
| 
| !2 AT 20
returned
> q
";

const A_PROGRAM_THAT_WAITS: &str = "10 PRINT \"A,B\"
> n
| A,B
20 INPUT A,B
> n
| ? 
waits
> c
waits
> p
20 INPUT A,B
> k 6,7
typed
> n
| ? 
30 LET C=A*B
> p
20 INPUT A,B
> n 2
| ? 
40 PRINT C
> v
A=6
B=7
C=42
> c
| 42
| A,B
| ? 
waits
> k 1
typed
> n
| 
| ? 
waits
> v A
A=1
> w A
set
> rc
20 INPUT A,B
> k x
typed
> c
| ? 
| ? 
| !6 AT 20
returned
> rc
20 INPUT A,B
";

const A_PROGRAM_THAT_FAULTS: &str = "10 LET A=2
> c
| 3
| 6
| 
| !2 AT 20
returned
> p
20 PRINT 6/A
> v
none
> r
none
";

const A_PROGRAM_THAT_RUNS_FOREVER: &str = "10 LET A=RND(6)
> g 50
no such line
> t 9
| 2
20 LET B=B+1
> g 40
| 3
40 GOTO 10
> b 10
set
> c
10 LET A=RND(6)
> b 10
cleared
";

const WHAT_IS_DRAWN: &str = "10 LET I=1
> c
| *
| **
| ***
| ****
| *****
returned
> t 9
30 PRINT \"*\";
> o
| *
";

const THE_MACHINE: &str = "10 LET A=3
> x
0C00 A=00 X=F0 Y=00 S=F0 P=B0 10 running
> i
JSR $FFE4 ; 0C00
CMP #$03 ; 0C03
BNE $0C10 ; 0C05
LDX #$0A ; 0C07
LDY #$00 ; 0C09
LDA #$00 ; 0C0B
JMP $0BAD ; 0C0D
LDA #$03 ; 0C10
> m C000 2
C000 00 00
> m 0000 4
0000 -- -- 00 00
> m 9FFE 3
9FFE 00 00 --
> m c000 18
C000 00 00 00 00 00 00 00 00 00 00 00 00 00 00 00 00
C010 00 00
> m ffff 4
FFFF --
> m C000 0
what?
> m C000 257
what?
> m C00
what?
";

const AN_EMPTY_LINE: &str = "10 LET A=3
> 
what?
> x
0C00 A=00 X=F0 Y=00 S=F0 P=B0 10 running
> 
what?
> n
20 PRINT A
> 
| 3
30 LET A=A-1
> v
A=3
> 
40 IF A>0 GOTO 20
> back 2
20 PRINT A
> 
10 LET A=3
> next 2
| 3
30 LET A=A-1
> b 30
set
> 
20 PRINT A
> continue
| 2
30 LET A=A-1
> 
| 1
30 LET A=A-1
> rc
30 LET A=A-1
> 
30 LET A=A-1
> 
10 LET A=3
> g 40
| 3
40 IF A>0 GOTO 20
> b
30 LET A=A-1
> 
| 2
40 IF A>0 GOTO 20
> t 1
20 PRINT A
> 
20 PRINT A
> g 31
no such line
> 
no such line
> s 2
20 PRINT A
> n 2x
what?
> 
20 PRINT A
";

const A_FAULT_THAT_STOPS: &str = "10 LET A=2
> f
stops at faults
> c
| 3
| 6
20 PRINT 6/A
> v
none
> c
| 
| !2 AT 20
returned
> c
returned
> p
20 PRINT 6/A
> f
goes through faults
> t 0
10 LET A=2
> c
| 3
| 6
| 
| !2 AT 20
returned
> f
stops at faults
> t 0
10 LET A=2
> s 3
10 LET A=2
> c
| 3
| 6
20 PRINT 6/A
> s 3
20 PRINT 6/A
> c
| 
| !2 AT 20
returned
> rc
10 LET A=2
> b 20
set
> c
20 PRINT 6/A
> c
| 3
20 PRINT 6/A
> c
| 6
20 PRINT 6/A
> c
| 
| !2 AT 20
returned
> b 20
cleared
> rc
10 LET A=2
> w A
set
> c
20 PRINT 6/A
> c
| 3
40 GOTO 20
> c
| 6
40 GOTO 20
> c
20 PRINT 6/A
";

const A_PROGRAM_THAT_RUNS_PAST: &str = "10 GOSUB 30
> f
stops at faults
> c
50 LET Y=2
> r
50 LET Y=2
20 END
> c
| 
| !7 AT 50
returned
";

const A_PROGRAM_WITHOUT_FAULTS: &str = "10 LET A=3
> f
stops at faults
> c
| 3
| 2
| 1
returned
> rc
10 LET A=3
> f
goes through faults
> f
stops at faults
> f x
what?
";

/// Programs, and dialogues about them.
static DIALOGUES: [(&[u8], &str); 16] = [
    (LOOP, LINES_FORTH_AND_BACK),
    (LOOP, BREAKPOINTS),
    (LOOP, WATCHES),
    (LOOP, A_WATCH_FROM_WITHIN_A_LINE),
    (NESTS, A_BREAKPOINT_IN_A_SUBROUTINE),
    (NESTS, OVER_AND_OUT),
    (FAULTS, OUT_TO_A_FAULT),
    (ASKS, A_PROGRAM_THAT_WAITS),
    (FAULTS, A_PROGRAM_THAT_FAULTS),
    (FOREVER, A_PROGRAM_THAT_RUNS_FOREVER),
    (DRAWS, WHAT_IS_DRAWN),
    (LOOP, THE_MACHINE),
    (LOOP, AN_EMPTY_LINE),
    (FAULTS, A_FAULT_THAT_STOPS),
    (RUNS_PAST, A_PROGRAM_THAT_RUNS_PAST),
    (LOOP, A_PROGRAM_WITHOUT_FAULTS),
];

// What is written in answer to these commands; nothing if the dialogue ends in a fault.
fn answers(alloc: Global, source: &[u8], commands: &[u8]) -> Result<Vec<u8>, Fail> {
    let compiled = source_of(alloc, source)?;
    let mut streams = Streams {
        commands: Tracked::new(commands),
        writer: Tracked::new(Vec::new(alloc)),
    };
    let outcome = debugs(alloc, &compiled, &mut streams);
    Ok(match outcome {
        Outcome::Ended(_) => streams.writer.stream,
        _ => Vec::new(alloc),
    })
}

// The answers of a dialogue.
fn wanted(alloc: Global, dialogue: &[u8]) -> Result<Vec<u8>, AllocError> {
    let mut wanted = Vec::new(alloc);
    for line in dialogue.split_inclusive(|byte| *byte == b'\n') {
        if !line.starts_with(b"> ") {
            wanted.extend_from_slice(line)?;
        }
    }
    Ok(wanted)
}

// The status of a dialogue in which a command is given only if the answers before it are handed on, and what is
// written.
fn awaited(alloc: Global, source: &[u8], dialogue: &[u8]) -> Result<(u8, Vec<u8>), Fail> {
    let compiled = source_of(alloc, source)?;
    let handed_on = Cell::new(0);
    let commands = Tracked::new(AwaitingReader {
        command: &[],
        dialogue,
        answered: 0,
        handed_on: &handed_on,
    });
    let writer = Tracked::new(WatchedWriter {
        taken: Vec::new(alloc),
        handed_on: &handed_on,
    });
    let mut streams = Streams { commands, writer };
    let status = debugs(alloc, &compiled, &mut streams).status();
    Ok((status, streams.writer.stream.taken))
}

#[test]
fn dialogues(rt: HostRuntime) -> Result<(), Fail> {
    for &(source, dialogue) in &DIALOGUES {
        let dialogue = dialogue.as_bytes();
        let (status, text) = awaited(rt.alloc(), source, dialogue)?;
        assert_eq!(rt; (status, text), (0, wanted(rt.alloc(), dialogue)?));
    }
    Ok(())
}

// A command that is asked for before its time is a fault.
#[test]
fn an_answer_that_is_awaited_in_vain(rt: HostRuntime) -> Result<(), Fail> {
    let (status, text) = awaited(
        rt.alloc(),
        LOOP,
        b"10 LET A=3\n> n\n20 PRINT AB\n> n\n> q\n",
    )?;
    assert_eq!(rt;
        (status, text.as_slice()),
        (3, b"10 LET A=3\n20 PRINT A\n".as_slice())
    );
    Ok(())
}

// A `c` that ends at the limit of events.
#[test]
fn the_limit(rt: HostRuntime) -> Result<(), Fail> {
    let text = answers(rt.alloc(), FOREVER, b"c\nrc\nh\n")?;
    let text = text.as_slice();
    assert!(rt; text.starts_with(b"10 LET A=RND(6)\n| 2\n| 3\n| 5\n| 7\n"));
    assert!(rt; contains(text, b"\nlimit\n"));
    assert!(rt; contains(text, b"\n10 LET A=RND(6)\nn [K] "));
    assert!(rt; text.ends_with(b"q          end\n"));
    Ok(())
}

// At a terminal a prompt comes before each command, and what helps after `what?`.
#[test]
fn a_terminal(rt: HostRuntime) -> Result<(), Fail> {
    let compiled = source_of(rt.alloc(), LOOP)?;
    let mut streams = Streams {
        commands: Tracked::new(b"z\ne 1+\nn\n\nq\n".as_slice()),
        writer: Tracked::new(Vec::new(rt.alloc())),
    };
    let outcome = debugs_at_terminal(rt.alloc(), &compiled, &mut streams);
    assert_eq!(rt; outcome.status(), 0);
    assert_eq!(rt;
        streams.writer.stream.as_slice(),
        b"10 LET A=3\n> what? (h lists the commands)\n> what? (h lists the commands)\n> 20 PRINT A\n\
> | 3\n30 LET A=A-1\n> "
            .as_slice()
    );
    Ok(())
}

// Whether a part occurs in a text.
fn contains(text: &[u8], part: &[u8]) -> bool {
    (0..text.len()).any(|from| text[from..].starts_with(part))
}
