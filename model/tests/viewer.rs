//! The reader of value change dumps, on dumps of no bench.

use motor_model::viewer::Wave;

/// White space of all kinds, comments, scopes in scopes, long codes.
const DUMP: &str = "$date today $end $version 0 $end
$comment $var is no declaration here $end
$timescale\t10us $end
$scope module top $end $var reg 1 a! clock $end
  $scope begin inner $end\r\n  $var wire 1 $ d_$1 $end $var wire 1 # e $end $upscope $end
$var wire 8 ~~ bus $end
$upscope $end $scope module other $end $var wire 1 0 clock $end $upscope $end
$enddefinitions $end
#5 0a! 1$ 0# 10
$comment #9 1a! $end
#7
1a!
#18446744073709551615 0a! 1# 0$ 00
";

fn read(dump: &str) -> Result<Wave, String> {
    Wave::read(dump.as_bytes())
}

#[test]
fn signals_and_values() {
    let wave = read(&DUMP.replace("$var wire 8 ~~ bus $end", "")).unwrap();
    assert_eq!(wave.timescale, "10 us");
    assert_eq!(wave.times, [5, 7, u64::MAX]);
    let declared: Vec<_> =
        wave.signals.iter().map(|s| (&s.code[..], &s.scope[..], &s.name[..], s.width)).collect();
    assert_eq!(
        declared,
        [
            ("a!", "top", "clock", 1),
            ("$", "top.inner", "d_$1", 1),
            ("#", "top.inner", "e", 1),
            ("0", "other", "clock", 1),
        ]
    );
    assert_eq!(wave.signal("top.clock").unwrap().changes, [(5, false), (7, true), (u64::MAX, false)]);
    for (path, time, value) in [
        ("top.clock", 0, None),
        ("top.clock", 4, None),
        ("top.clock", 5, Some(false)),
        ("top.clock", 6, Some(false)),
        ("top.clock", 7, Some(true)),
        ("top.clock", 8, Some(true)),
        ("top.clock", u64::MAX - 1, Some(true)),
        ("top.clock", u64::MAX, Some(false)),
        ("top.inner.d_$1", 7, Some(true)),
        ("top.inner.e", 7, Some(false)),
        ("other.clock", 7, Some(true)),
        ("clock", 7, None),
        ("top.e", 7, None),
    ] {
        assert_eq!(wave.value(path, time), value, "{path} at {time}");
    }
}

/// A bus has no value of one digit, and so never its first one.
#[test]
fn a_bus_is_not_read() {
    assert!(read(DUMP).unwrap_err().contains("top.bus has no first value"));
    let one_digit = DUMP.replace("#5 ", "#5 0~~ ");
    assert!(read(&one_digit).unwrap_err().contains("one digit for the 8 bits of top.bus"));
    let digits = DUMP.replace("#5 ", "#5 b00000000 ~~ ");
    assert!(read(&digits).unwrap_err().contains("b00000000 is neither a time nor a change"));
}

#[test]
fn no_signals() {
    let dump = "$timescale 1 ms $end $enddefinitions $end #0";
    assert_eq!(read(dump).unwrap().signals, []);
    assert!(read("$timescale 1 ms $end $enddefinitions $end").unwrap_err().contains("no time"));
    assert!(read(&format!("{dump} #1")).unwrap_err().contains("nothing changes at time 1"));
}

const GOOD: &str = "$timescale 1 ms $end
$scope module m $end
$var wire 1 ! a $end
$var wire 1 \" b $end
$upscope $end
$enddefinitions $end
#0
0!
1\"
#10
1!
#20
0!
0\"
";

/// Each text in place of another, and what the reader says of it.
#[test]
fn malformed_dumps() {
    read(GOOD).unwrap();
    for (right, wrong, fault) in [
        // Times.
        ("#20", "#10", "time 10 is not after the last one"),
        ("#20", "#9", "time 9 is not after the last one"),
        ("#20", "#0", "time 0 is not after the last one"),
        ("#20", "#", "# is no time"),
        ("#20", "#+20", "#+20 is no time"),
        ("#20", "#-20", "#-20 is no time"),
        ("#20", "#2x", "#2x is no time"),
        ("#20", "#20.0", "#20.0 is no time"),
        ("#20", "#18446744073709551616", "#18446744073709551616 is no time"),
        ("#20", "# 20", "# is no time"),
        ("#20", "20", "20 is neither"),
        ("#20", "#15 #20", "nothing changes at time 15"),
        ("#20\n0!\n0\"\n", "#20\n", "nothing changes at time 20"),
        ("#0\n", "", "a value before any time"),
        ("#0\n0!\n1\"\n#10\n1!\n#20\n0!\n0\"\n", "", "no time"),
        // Values.
        ("1!\n#20", "1#\n#20", "the code # is not declared"),
        ("1!\n#20", "1!!\n#20", "the code !! is not declared"),
        ("1!\n#20", "1 !\n#20", "the code  is not declared"),
        ("1!\n#20", "1\n#20", "the code  is not declared"),
        ("1!\n#20", "11!\n#20", "the code 1! is not declared"),
        ("1!\n#20", "0!\n#20", "m.a changes at time 10 to what it was"),
        ("1!\n#20", "1!\n1\"\n#20", "m.b changes at time 10 to what it was"),
        ("1!\n#20", "1!\n1!\n#20", "m.a changes twice at time 10"),
        ("1!\n#20", "1!\n0!\n#20", "m.a changes twice at time 10"),
        ("0!\n1\"", "0!\n1\"\n0!", "m.a changes twice at time 0"),
        ("0!\n1\"", "0!", "m.b has no first value"),
        ("0!\n1\"", "", "m.a has no first value"),
        ("1!\n#20", "x!\n#20", "x! is neither"),
        ("1!\n#20", "z!\n#20", "z! is neither"),
        ("1!\n#20", "X!\n#20", "X! is neither"),
        ("1!\n#20", "2!\n#20", "2! is neither"),
        ("1!\n#20", "!\n#20", "! is neither"),
        ("1!\n#20", "b1 !\n#20", "b1 is neither"),
        ("1!\n#20", "R,1,1,2,1,0,0,0,0\n#20", "R,1,1,2,1,0,0,0,0 is neither"),
        ("#20\n0!\n0\"\n", "E,7,2\n", "E,7,2 is neither"),
        ("#20\n0!\n0\"\n", "$dumpoff $end\n", "$dumpoff is neither"),
        ("#20\n0!\n0\"\n", "$comment\n", "$comment without $end"),
        ("#20\n0!\n0\"\n", "$var wire 1 # c $end\n", "$var is neither"),
        // Declarations.
        ("$timescale 1 ms $end\n", "", "no timescale"),
        ("$timescale 1 ms $end\n", "$timescale 1 ms $end $timescale 1 ms $end\n", "two timescales"),
        ("1 ms", "", " is no timescale"),
        ("1 ms", "1", "1 is no timescale"),
        ("1 ms", "ms", "ms is no timescale"),
        ("1 ms", "2 ms", "2ms is no timescale"),
        ("1 ms", "1 min", "1min is no timescale"),
        ("1 ms", "1 MS", "1MS is no timescale"),
        ("1 ms", "1 ms 1", "1ms1 is no timescale"),
        ("1 ms $end", "1 ms", "1ms$scopemodulem is no timescale"),
        ("$scope module m $end\n", "", "a is outside of any scope"),
        ("$scope module m $end", "$scope m $end", "$scope m is no declaration"),
        ("$scope module m $end", "$scope room m $end", "$scope room m is no declaration"),
        ("$scope module m $end", "$scope module m n $end", "$scope module m n is no declaration"),
        ("$scope module m $end", "$scope module 1 $end", "1 is no name of a scope"),
        ("$scope module m $end", "$scope module m", "$scope module m $var wire 1 ! a is no declaration"),
        ("$upscope $end\n", "", "the scope m is not left"),
        ("$upscope $end\n", "$upscope m $end\n", "$upscope m is no declaration"),
        ("$upscope $end\n", "$upscope $end $upscope $end\n", "$upscope outside of any scope"),
        ("wire 1 ! a", "wire ! a", "$var wire ! a is no declaration"),
        ("wire 1 ! a", "wire 1 ! a [0]", "$var wire 1 ! a [0] is no declaration"),
        ("wire 1 ! a", "real 1 ! a", "$var real 1 ! a is no declaration"),
        ("wire 1 ! a", "wire 0 ! a", "a has width 0"),
        ("wire 1 ! a", "wire x ! a", "a has width x"),
        ("wire 1 ! a", "wire -1 ! a", "a has width -1"),
        ("wire 1 ! a", "wire 4294967297 ! a", "a has width 4294967297"),
        ("wire 1 ! a", "wire 1 \x01 a", "is no code"),
        ("wire 1 ! a", "wire 1 ! 1a", "1a is no name of a signal"),
        ("wire 1 ! a", "wire 1 ! a.b", "a.b is no name of a signal"),
        ("wire 1 ! a", "wire 1 ! b", "two signals have the name m.b"),
        ("wire 1 ! a", "wire 1 \" a", "the code \" stands for two signals"),
        ("wire 1 ! a $end", "wire 1 ! a", "is no declaration"),
        ("$var wire 1 ! a $end", "", "the code ! is not declared"),
        ("$enddefinitions $end\n", "", "#0 is no declaration"),
        ("$enddefinitions $end", "$enddefinitions", "$enddefinitions without $end"),
        ("$enddefinitions $end", "$enddefinitions now $end", "$enddefinitions now is no declaration"),
        ("$enddefinitions", "$end", "$end  is no declaration"),
        ("$enddefinitions", "$other", "$other  is no declaration"),
        ("$timescale", "1! $timescale", "1! is no declaration"),
        ("#20", "#20 \u{e9}", "no ASCII"),
    ] {
        assert!(GOOD.contains(right), "{right}");
        let dump = GOOD.replacen(right, wrong, 1);
        match read(&dump) {
            Ok(_) => panic!("{right} as {wrong} is read"),
            Err(said) => assert!(said.contains(fault), "{right} as {wrong}: {said}"),
        }
    }
    assert!(read("").unwrap_err().contains("no $enddefinitions"));
    assert!(Wave::read(b"\xff").is_err());
}

/// Cut anywhere, a dump is an error or has every value up to there.
#[test]
fn cut_dumps() {
    let whole = read(GOOD).unwrap();
    let first = GOOD.find("1\"").unwrap() + 2;
    for length in 0..GOOD.len() {
        match read(&GOOD[..length]) {
            Err(_) => {}
            Ok(part) => {
                assert!(length >= first, "{length}");
                for (cut, full) in part.signals.iter().zip(&whole.signals) {
                    assert!(full.changes.starts_with(&cut.changes), "{length}");
                }
            }
        }
    }
}
