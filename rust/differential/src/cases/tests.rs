//! Each kind of case, right and made wrong.

use super::{Program, run_all};
use crate::kit::{Handwritten, Proved};

/// A case of each of some kinds, and what makes one of them wrong: an answer, something that was lent, or a row that is not understood.
struct Sample {
    program: Program,
    cases: &'static str,
    wrong: &'static [(&'static str, &'static str)],
}

const SAMPLES: [Sample; 9] = [
    Sample {
        program: Program::Step,
        cases: "\
step ADD@ R4,R4 is R4 + 1 + word
before flags=SZOC 0100=02E4 1414=0005
after flags=- ready=1 r4=141A r7=0101 answer=executed cycles=8
run budget 7: the sum passes it
before budget=7 0100=0034,0034
after ready=1 r7=0102 answer=budget steps=2 cycles=12
",
        wrong: &[
            ("step ADD@", "steps ADD@"),
            ("step ADD@", "wait ADD@"),
            ("r4=141A", "r4=141B"),
            ("r4=141A", "r9=141A"),
            ("flags=- ", ""),
            ("flags=- ", "flags=ZS "),
            ("ready=1 r4", "r4"),
            ("r7=0101 answer", "r7=0101 1414=0006 answer"),
            ("answer=executed", "answer=granted"),
            ("cycles=8", "cycles=9"),
            ("cycles=8", "cycles=8 steps=1"),
            ("budget=7", "budget=6"),
            ("answer=budget", "answer=halted"),
            ("steps=2", "steps=3"),
        ],
    },
    Sample {
        program: Program::Meter,
        cases: "\
wait an unspecified form
before 0000=0006,0004,0003
after answer=unspecified address=0001
region none of either
before size=1 fill=0000
after answer=found
",
        wrong: &[
            ("address=0001", "address=0002"),
            ("answer=unspecified address=0001", "answer=over address=0001"),
            ("answer=found", "answer=found over=0000"),
            ("answer=found", "answer=found longest=4"),
            ("answer=found", ""),
        ],
    },
    Sample {
        program: Program::Reach,
        cases: "\
reach SDBD, INCR R7 in buffers with old contents
before fill=0000 0010=0001,000F entries=0010,0020 clear=0000-FFFF set=0030
after answer=built addresses=3 writers=1 lowest=0011 clear=0010,0020 set=0011
region a lower start that is no member
before fill=0000 0008=0034,0006,0034 first=0008 last=000A limit=12 clear=0009-000A set=0008
after answer=found longest=10 start=0009
both an operand is no start
before fill=0000 0010=02B8,0248,0034 first=0010 last=0012 entries=0010
after answer=found longest=8 start=0010
",
        wrong: &[
            ("entries=0010,0020", "entries=0010"),
            ("addresses=3", "addresses=4"),
            ("writers=1", "writers=2"),
            ("lowest=0011", "lowest=0010"),
            ("lowest=0011 ", ""),
            ("clear=0010,0020 set=0011", "clear=0010,0020"),
            ("clear=0010,0020 set=0011", "clear=0010,0020 set=0011,0012"),
            ("clear=0010,0020", "clear=0010"),
            ("clear=0010,0020", "clear=0010,0020,FFFF"),
            ("clear=0010,0020", "clear=0010,0020,"),
            ("addresses=3 writers=1 lowest=0011 clear=0010,0020 set=0011", "number=17"),
            ("set=0030", "set=0030 clearwords=1023"),
            ("set=0030", "set=0030 setwords=1025"),
            ("clear=0009-000A", "clear=0009-000A clearwords=1025"),
            ("clear=0009-000A", "clear=000A"),
            ("limit=12", "limit=9"),
            ("longest=10", "longest=10 over=0009"),
            ("longest=8 start=0010", "longest=15 start=0011"),
            ("last=0012 entries=0010", "last=0012 entries=0011"),
            ("last=0012 entries=0010", "last=0012 clear=0010"),
        ],
    },
    Sample {
        program: Program::Listing,
        cases: "\
list MVII under D
before d=1 0000=02B8,0034,0012
after answer=listed words=3 text=MVII #$1234,R0
assemble no line
before text=NOP 
after answer=refused number=6
",
        wrong: &[
            ("words=3", "words=2"),
            ("words=3", "words=3 d=1"),
            ("before d=1", "before d=0"),
            ("text=MVII #$1234,R0", "text=MVII #$1235,R0"),
            ("text=NOP ", "text=NOP"),
            ("number=6", "number=5"),
            ("number=6", "number=99"),
        ],
    },
    Sample {
        program: Program::Image,
        cases: "\
load the example
before size=17 file=4944000241540010000100344F4B0047
after answer=loaded records=1 0010=0034
write a word
before size=17 first=0010 last=0010 room=20 0010=0034
after answer=written length=16 file=4944000241540010000100344F4B0047
trip 4,097 words
before size=4353 first=0100 last=1100 room=8214
after answer=loaded records=2
",
        wrong: &[
            ("records=1 ", "records=2 "),
            ("records=1 0010=0034", "records=1"),
            ("records=1 0010=0034", "records=1 0010=0034 0011=0034"),
            ("length=16", "length=17"),
            ("room=20 ", "room=15 "),
            ("4F4B0047\ntrip", "4F4B0048\ntrip"),
            ("room=8214", "room=8215"),
            ("records=2", "records=1"),
        ],
    },
    Sample {
        program: Program::Pair,
        cases: "\
load a line and an empty one
before size=18 bin=12345678 text=[mapping]//$0000 - $0001 = $0010/
after answer=loaded lines=1 0010=1234,5678
write a region
before size=18 0010=1234,5678 first=0010 last=0011 binroom=5 cfgroom=33
after answer=written binlength=4 cfglength=32 bin=12345678 text=[mapping]/$0000 - $0001 = $0010/
trip a region there and back
before size=1281 first=0100 last=0500
after answer=loaded lines=1
",
        wrong: &[
            ("load a line", "list a line"),
            ("bin=12345678 text=[mapping]//", "bin=12345679 text=[mapping]//"),
            ("bin=12345678 text=[mapping]//", "bin=123456 text=[mapping]//"),
            ("text=[mapping]//", "text=[mapping]/^/"),
            ("lines=1 0010=1234,5678", "lines=2 0010=1234,5678"),
            ("lines=1 0010=1234,5678", "lines=1 0010=1234"),
            ("lines=1 0010=1234,5678", "lines=1 0010=1234,5678,5A5B"),
            ("answer=written", "answer=loaded"),
            ("answer=written", "answer=refused number=13"),
            ("binlength=4", "binlength=5"),
            ("cfglength=32", "cfglength=33"),
            ("bin=12345678 text=[mapping]/$", "bin=123456 text=[mapping]/$"),
            ("bin=12345678 text=[mapping]/$", "bin=1234567800 text=[mapping]/$"),
            ("= $0010/\ntrip", "= $0011/\ntrip"),
            ("= $0010/\ntrip", "= $0010\ntrip"),
            ("binroom=5", "binroom=3"),
            ("cfgroom=33", "cfgroom=31"),
            ("last=0500", "last=0501"),
            ("first=0100", "first=0501"),
            ("loaded lines=1\n", "loaded lines=0\n"),
        ],
    },
    Sample {
        program: Program::Step,
        cases: "\
step a store to 8-bit RAM
before map=0100-0100:rom,1414-1414:ram8,1400-14FF:ram16 r0=ABCD 0100=0260
after r4=1415 r7=0101 1414=00CD answer=executed cycles=9
run a store to ROM
before budget=9 map=0000-FFFF:rom 0100=0260
after r4=1415 r7=0101 answer=budget steps=1 cycles=9
",
        wrong: &[
            ("1414-1414:ram8,", ""),
            ("1414-1414:ram8,", "1414-1414:ram,"),
            ("1414-1414:ram8,1400-14FF:ram16", "1400-14FF:ram16,1414-1414:ram8"),
            ("map=0000-FFFF:rom ", ""),
            ("map=0000-FFFF:rom ", "map=0000-FFFF:ram16 "),
        ],
    },
    Sample {
        program: Program::Meter,
        cases: "\
wait a bad map
before map=0000-FFFF:ram16,0001-0000:rom
after answer=refused number=14
region no word is there
before map=none last=0003 0000=0006
after answer=found longest=8 start=0000
",
        wrong: &[("0001-0000:rom", "0000-0000:rom"), ("map=none", "map="), ("map=none ", "")],
    },
    Sample {
        program: Program::Listing,
        cases: "\
list an empty word
before map=0001-FFFF:rom 0000=0034 0001=1234
after answer=listed words=2 text=XORI #$1234,R7
",
        wrong: &[("map=0001-FFFF:rom", "map=0000-FFFF:rom")],
    },
];

#[test]
fn good_cases_pass() {
    for Sample { program, cases, .. } in SAMPLES {
        let kinds = cases.matches("before ").count();
        for counts in [run_all::<Proved>(program, cases), run_all::<Handwritten>(program, cases)] {
            let counts = counts.expect("each case is right");
            assert!(counts.len() == kinds && counts.values().all(|count| *count == 1), "{counts:?}");
        }
    }
}

#[test]
fn wrong_cases_fail() {
    for Sample { program, cases, wrong } in SAMPLES {
        for (right, wrong) in wrong {
            assert_eq!(cases.matches(right).count(), 1, "{right}");
            let cases = cases.replace(right, wrong);
            assert!(run_all::<Proved>(program, &cases).is_err(), "{wrong} in place of {right}");
            assert!(run_all::<Handwritten>(program, &cases).is_err(), "{wrong} in place of {right}");
        }
    }
}
