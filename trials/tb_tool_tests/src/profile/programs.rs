//! The programs that are profiled, with their tables.
use std::alloc::Global;
use tb_compiled::CompileSettings;
use tb_program_files::profile_file;
use tb_kernal::Quiet;
use tb_engine_profile::{Named, Run};
use tb_test_support::{Shelf, keyboard_of};
use tb_kernal::Unwatched;

/// A source, what is typed, a limit of events, and what comes of it.
#[derive(Clone, Copy)]
pub struct Program {
    pub name: &'static str,
    pub source: &'static str,
    pub keys: &'static [u8],
    pub limit: u32,
    pub status: u8,
    pub table: &'static str,
}

/// The status of a profile of the source that a shelf holds: what is written there is the table, and then the page.
pub fn profiles(alloc: Global, program: &Program, shelf: &mut Shelf<'_>) -> u8 {
    let Ok(keyboard) = keyboard_of(alloc, program.keys, b"") else {
        return 4;
    };
    let named = Named {
        name: program.name,
        rude: None,
    };
    let run = Run {
        keyboard,
        limit: program.limit,
        outside: Quiet,
        watch: Unwatched,
    };
    let settings = CompileSettings::by_cost(1);
    profile_file(alloc, shelf, named, Some("page.html"), settings, run).status()
}

/// A shelf with a program's source, and room for both texts.
pub fn shelf_of(alloc: Global, program: &Program) -> Shelf<'static> {
    Shelf::new(alloc, program.source.as_bytes(), usize::MAX, 2)
}

/// The first of them.
pub const LOOP: Program = Program {
    name: "a loop",
    source: "10 LET I=1\n20 PRINT I\n30 LET I=I+1\n40 IF I<6 GOTO 20\n50 END\n",
    keys: b"",
    limit: 100_000,
    status: 0,
    table: " line      times instructions        cycles   share  statement
start          1          192           634   43.2%
   10          1            8            29    2.0%  LET I=1
   20          5          130           485   33.0%  PRINT I
   30          5           30           130    8.8%  LET I=I+1
   40          5           50           169   11.5%  IF I<6 GOTO 20
   50          1            5            22    1.5%  END
  sum         17          415          1469  100.0%
",
};

static PROGRAMS: [Program; 8] = [
    LOOP,
    Program {
        name: "GOSUB",
        source: "10 LET A=7\n20 GOSUB 100\n30 GOSUB 100\n40 END\n100 PRINT A*A\n110 RETURN\n",
        keys: b"",
        limit: 100_000,
        status: 0,
        table: " line      times instructions        cycles   share  statement
start          1          192           634   38.6%
   10          1            8            29    1.8%  LET A=7
   20          1           14            52    3.2%  GOSUB 100
   30          1           14            52    3.2%  GOSUB 100
   40          1            5            22    1.3%  END
  100          2          230           748   45.5%  PRINT A*A
  110          2           30           106    6.5%  RETURN
  sum          8          493          1643  100.0%
",
    },
    Program {
        name: "a fault",
        source: "10 LET A=0\n20 PRINT 1/A\n30 PRINT 2\n",
        keys: b"",
        limit: 100_000,
        status: 0,
        table: " line      times instructions        cycles   share  statement
start          1          192           634   56.8%
   10          1            8            29    2.6%  LET A=0
   20          1          130           453   40.6%  PRINT 1/A
   30          0            0             0    0.0%  PRINT 2
  sum          2          330          1116  100.0%
",
    },
    Program {
        name: "a wait for a key",
        source: "10 PRINT \"HOW MANY\"\n20 INPUT A,B\n30 PRINT A+B\n",
        keys: b"12\r",
        limit: 100_000,
        status: 6,
        table: " line      times instructions        cycles   share  statement
start          1          192           634   38.2%
   10          1          116           473   28.5%  PRINT \"HOW MANY\"
   20          1          173           551   33.2%  INPUT A,B
   30          0            0             0    0.0%  PRINT A+B
  sum          2          481          1658  100.0%
",
    },
    Program {
        name: "an end before any line",
        source: "10 PRINT 1\n20 END\n",
        keys: b"",
        limit: 100,
        status: 5,
        table: " line      times instructions        cycles   share  statement
start          1          100           331  100.0%
   10          0            0             0    0.0%  PRINT 1
   20          0            0             0    0.0%  END
  sum          0          100           331  100.0%
",
    },
    Program {
        name: "a line that is never reached",
        source: "10 GOTO 30\n20 PRINT \"NO\"\n30 PRINT \"YES\"\n40 END\n",
        keys: b"",
        limit: 100_000,
        status: 0,
        table: " line      times instructions        cycles   share  statement
start          1          192           634   70.6%
   10          1            5            19    2.1%  GOTO 30
   20          0            0             0    0.0%  PRINT \"NO\"
   30          1           56           223   24.8%  PRINT \"YES\"
   40          1            5            22    2.4%  END
  sum          3          258           898  100.0%
",
    },
    Program {
        name: "a limit in a loop",
        source: "10 LET A=A+1\n20 GOTO 10\n",
        keys: b"",
        limit: 5_000,
        status: 5,
        table: " line      times instructions        cycles   share  statement
start          1          192           634    3.1%
   10        437         2623         11367   56.0%  LET A=A+1
   20        437         2185          8303   40.9%  GOTO 10
  sum        874         5000         20304  100.0%
",
    },
    Program {
        name: "lines of any look",
        source: " 1 0 LET A = 1\r\n20 PRINT \"OLD\"\r\n\r\n5REM a b\r\n 2 0  PRINT \"<A & 'B'>\",A\r30 PRINT\r\n30\n40 END",
        keys: b"",
        limit: 100_000,
        status: 0,
        table: " line      times instructions        cycles   share  statement
start          1          192           634   41.7%
    5          1            4            17    1.1%  REM a b
   10          1            8            29    1.9%  LET A = 1
   20          1          203           818   53.8%  PRINT \"<A & 'B'>\",A
   40          1            5            22    1.4%  END
  sum          4          412          1520  100.0%
",
    },
];

/// All of them. The table is named here alone, since each function that names it takes long to prove.
pub fn programs() -> &'static [Program] {
    &PROGRAMS
}
