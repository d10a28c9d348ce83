//! Paths, documents and streams as strangers hand them in: one answer or one named refusal each.
use crate::asserts::check;
use crate::run::streams::{Source, make_sink};
use jsonpath_run::{Checked, Fault, Input, Output, run};
use std::alloc::Global;
use std::io::{self, ErrorKind, Read, Write};
use std::process::Abort;
use std::test::Fail;

// What `check` writes, or the text of its refusal.
fn checked(alloc: Global, path: &str) -> Result<String, Fail> {
    let mut reader = Source::new(b"", 0, 1);
    let mut writer = make_sink(alloc, usize::MAX);
    match run(alloc, &["check", path], &mut reader, &mut writer) {
        Ok(_) => Ok(String::from_utf8(writer.bytes)?),
        Err(fault) => {
            if fault.status() != 1 || !writer.bytes.is_empty() || reader.failed() {
                return Err(Fail::new("a refused path was no plain refusal"));
            }
            Ok(fault.to_string(alloc)?)
        }
    }
}

// What the words write for a document, or the text of their refusal.
fn answered(alloc: Global, words: &[&str], document: &[u8]) -> Result<String, Fail> {
    let mut reader = Source::new(document, usize::MAX, 4096);
    let mut writer = make_sink(alloc, usize::MAX);
    match run(alloc, words, &mut reader, &mut writer) {
        Ok(_) => Ok(String::from_utf8(writer.bytes)?),
        Err(fault) => Ok(fault.to_string(alloc)?),
    }
}

// The parts, each as many times as its number says.
fn repeated(alloc: Global, parts: &[(&str, usize)]) -> Result<String, Fail> {
    let mut text = String::new(alloc);
    for (part, times) in parts {
        for _ in 0..*times {
            text.push_str(*part)?;
        }
    }
    Ok(text)
}

// Paths that are refused at their end, or at a position.
const REFUSED: [(&str, &str); 27] = [
    ("$['a", "Eof"),
    ("$[\"", "Eof"),
    ("$['a\\']", "Eof"),
    ("$[?(@.a == 'x)]", "Eof"),
    ("$=", "Eof"),
    ("$.a&", "Eof"),
    ("$.$", "Eof"),
    ("$a", "Eof"),
    ("$$", "Eof"),
    ("$.a b", "Eof"),
    ("", "Eof"),
    (" $", "Position:1"),
    ("$=1", "Position:2"),
    ("$a.b", "Position:2"),
    ("$$.a", "Position:2"),
    ("$[+]", "Position:3"),
    ("$[-]", "Position:3"),
    ("$.a&b", "Position:4"),
    ("$.a b.c", "Position:5"),
    ("$.a&&b", "Position:5"),
    ("$.'a'.b", "Position:5"),
    ("$[?(@ == 1e5)]", "Position:12"),
    ("$[?(@ == -inf)]", "Position:13"),
    ("$[?(@ == truely)]", "Position:15"),
    ("$[-9223372036854775809]", "Position:22"),
    ("$[::18446744073709551616]", "Position:24"),
    ("$[?(@ < 0.1234567890123456789)]", "Position:29"),
];

#[test]
fn hostile_paths(rt: HostRuntime) -> Result<(), Fail> {
    let alloc = rt.alloc();
    for (path, text) in REFUSED {
        let refused = format!(in alloc; "path error: \n{text}\n")?;
        check!(rt; checked(alloc, path)?.as_str() == refused.as_str());
    }
    Ok(())
}

#[test]
fn odd_paths_that_compile(rt: HostRuntime) -> Result<(), Fail> {
    let alloc = rt.alloc();
    for path in [
        "$['a\\\\']",
        "$[?(@ < 0.123456789012345678)]",
        "$[?(@ == tRuE)]",
        "$ ",
    ] {
        check!(rt; checked(alloc, path)?.as_str() == "ok\n");
    }
    Ok(())
}

// Asserts what `check` says of paths, each of parts that come so many times.
fn check_repeated(
    rt: &(impl Abort + AllocGlobal),
    rows: &[(&[(&str, usize)], &str)],
) -> Result<(), Fail> {
    let alloc = rt.alloc();
    for (parts, text) in rows {
        let path = repeated(alloc, *parts)?;
        check!(*rt; checked(alloc, path.as_str())?.as_str() == *text);
    }
    Ok(())
}

#[test]
fn large_paths(rt: HostRuntime) -> Result<(), Fail> {
    let rows: [(&[(&str, usize)], &str); 2] = [
        (&[("$", 1), (".a", 100_000)], "ok\n"),
        (&[("$[0", 1), (",1", 100_000), ("]", 1)], "ok\n"),
    ];
    check_repeated(&rt, &rows)
}

#[test]
fn deep_paths(rt: HostRuntime) -> Result<(), Fail> {
    let rows: [(&[(&str, usize)], &str); 3] = [
        (
            &[("$[?", 1), ("(", 100_000)],
            "path error: \nPosition:1004\n",
        ),
        (&[("$", 1), ("[?(@", 1000), (")]", 1000)], "ok\n"),
        (
            &[("$", 1), ("[?(@", 1001), (")]", 1001)],
            "path error: \nPosition:4003\n",
        ),
    ];
    check_repeated(&rt, &rows)
}

#[test]
fn paths_of_many_blanks(rt: HostRuntime) -> Result<(), Fail> {
    let rows: [(&[(&str, usize)], &str); 2] = [
        (&[("$", 1), (" ", 1_000_000)], "ok\n"),
        (&[("$[", 1), (" ", 1_000_000)], "path error: \nEof\n"),
    ];
    check_repeated(&rt, &rows)
}

#[test]
fn paths_of_long_names(rt: HostRuntime) -> Result<(), Fail> {
    let rows: [(&[(&str, usize)], &str); 2] = [
        (&[("$.", 1), ("a", 1_000_000)], "ok\n"),
        (&[("$['", 1), ("\\'", 500_000), ("']", 1)], "ok\n"),
    ];
    check_repeated(&rt, &rows)
}

#[test]
fn blanks_of_unicode(rt: HostRuntime) -> Result<(), Fail> {
    let alloc = rt.alloc();
    for blank in [
        '\u{9}', '\u{a}', '\u{b}', '\u{c}', '\u{d}', ' ', '\u{85}', '\u{a0}', '\u{1680}',
        '\u{2000}', '\u{2001}', '\u{2002}', '\u{2003}', '\u{2004}', '\u{2005}', '\u{2006}',
        '\u{2007}', '\u{2008}', '\u{2009}', '\u{200a}', '\u{2028}', '\u{2029}', '\u{202f}',
        '\u{205f}', '\u{3000}',
    ] {
        let path = format!(in alloc; "$[{blank}0{blank}]{blank}")?;
        check!(rt; answered(alloc, &["select", path.as_str()], b"[7]")?.as_str() == "[7]\n");
    }
    // Not blanks, though they show nothing: they are parts of words.
    for word in ['\u{180e}', '\u{200b}', '\u{2060}', '\u{feff}'] {
        let path = format!(in alloc; "$[{word}0]")?;
        check!(rt; checked(alloc, path.as_str())? .as_str() .starts_with("path error: \n"));
    }
    Ok(())
}

#[test]
fn large_documents(rt: HostRuntime) -> Result<(), Fail> {
    let alloc = rt.alloc();
    let list = repeated(alloc, &[("[7", 1), (",7", 99_999), ("]", 1)])?;
    for (words, text) in [
        (["select", "$[99999]"], "[7]\n"),
        (["select", "$[100000]"], "[]\n"),
        (["select", "$[-100000,-1]"], "[7,7]\n"),
        (["remove", "$[1:]"], "[7]\n"),
    ] {
        check!(rt; answered(alloc, &words, list.as_bytes())?.as_str() == text);
    }
    let mut members = String::from_str(alloc, "{\"m\":0")?;
    for i in 0..10_000u32 {
        members.push_str(format!(in alloc; ",\"m{i}\":{i}")?.as_str())?;
    }
    members.push('}')?;
    for (words, text) in [
        (["select", "$.m9999"], "[9999]\n"),
        (["select", "$.m10000"], "[]\n"),
        (["select", "$[?(@.m == 0)].m1"], "[1]\n"),
    ] {
        let found = answered(alloc, &words, members.as_bytes())?;
        check!(rt; found.as_str() == text);
    }
    Ok(())
}

#[test]
fn nesting_up_to_the_limit(rt: HostRuntime) -> Result<(), Fail> {
    let alloc = rt.alloc();
    for (open, close) in [("[", "]"), ("{\"a\":", "}")] {
        for (count, is_read) in [(127, true), (128, false)] {
            let document = repeated(alloc, &[(open, count), ("0", 1), (close, count)])?;
            let found = answered(alloc, &["select", "$..*"], document.as_bytes())?;
            check!(rt; found.as_str().starts_with("serde error: \n") != is_read);
            let found = answered(alloc, &["select", "$"], document.as_bytes())?;
            let whole = format!(in alloc; "[{document}]\n")?;
            check!(rt; (found.as_str() == whole.as_str()) == is_read);
        }
    }
    Ok(())
}

#[test]
fn names_of_control_characters(rt: HostRuntime) -> Result<(), Fail> {
    let alloc = rt.alloc();
    let mut document = String::from_str(alloc, "{")?;
    for code in 0..32u8 {
        if code > 0 {
            document.push(',')?;
        }
        document.push_str(format!(in alloc; "\"\\u00{code:02x}\":{code}")?.as_str())?;
    }
    document.push('}')?;
    let found = answered(alloc, &["select", "$[*]"], document.as_bytes())?;
    check!(rt; found.as_str() == "[0,1,2,3,4,5,6,7,8,9,10,11,12,13,14,15,16,17,18,19,20,21,22,23,24,25,26,27,28,29,30,31]\n");
    check!(rt; answered(alloc, &["select", "$['\u{1}']"], document.as_bytes())?.as_str() == "[1]\n");
    Ok(())
}

#[test]
fn numbers_at_their_limits(rt: HostRuntime) -> Result<(), Fail> {
    let alloc = rt.alloc();
    let numbers = b"[9223372036854775807,-9223372036854775808,18446744073709551615]";
    for (path, text) in [
        (
            "$[*]",
            "[9223372036854775807,-9223372036854775808,18446744073709551615]\n",
        ),
        (
            "$[*][?(@ > 9223372036854775807)]",
            "[18446744073709551615]\n",
        ),
        (
            "$[*][?(@ < -9223372036854775807.5)]",
            "[-9223372036854775808]\n",
        ),
    ] {
        check!(rt; answered(alloc, &["select", path], numbers)?.as_str() == text);
    }
    Ok(())
}

#[test]
fn numbers_that_are_not_read(rt: HostRuntime) -> Result<(), Fail> {
    let alloc = rt.alloc();
    let unread = "serde error: \nnumber is not a whole number of 64 bits\n";
    for number in [
        "1.5",
        "-0",
        "1e2",
        "18446744073709551616",
        "-9223372036854775809",
    ] {
        let document = format!(in alloc; "[[{number}],{{\"a\":{number}}}]")?;
        for words in [
            ["select", "$"],
            ["select", "$..a"],
            ["delete", "$[0]"],
            ["remove", "$[1]"],
        ] {
            check!(rt; answered(alloc, &words, document.as_bytes())?.as_str() == unread);
        }
        let found = answered(alloc, &["mask", "$[0]", "$[1].a"], document.as_bytes())?;
        check!(rt; found.as_str() == "[null,{\"a\":null}]\n");
        let found = answered(alloc, &["select", "$[*][?(@.a == 1)]"], document.as_bytes())?;
        check!(rt; found.as_str() == "[]\n");
    }
    Ok(())
}

// A stream of which every second call is interrupted.
#[derive(Drop)]
struct Interrupted<T> {
    inner: T,
    is_next: bool,
}

impl<T> Interrupted<T> {
    fn turn(&mut self) -> io::Result<()> {
        self.is_next = !self.is_next;
        if self.is_next {
            return Err(io::Error::from(ErrorKind::Interrupted));
        }
        Ok(())
    }
}

impl<T: Read> Read for Interrupted<T> {
    fn read(&mut self, buffer: &mut [u8]) -> io::Result<usize> {
        self.turn()?;
        self.inner.read(buffer)
    }
}

impl<T: Write> Write for Interrupted<T> {
    fn write(&mut self, piece: &[u8]) -> io::Result<usize> {
        self.turn()?;
        self.inner.write(piece)
    }

    fn flush(&mut self) -> io::Result<()> {
        Ok(())
    }
}

// A writer that takes nothing.
#[derive(Drop)]
struct Full;

impl Write for Full {
    fn write(&mut self, _piece: &[u8]) -> io::Result<usize> {
        Ok(0)
    }

    fn flush(&mut self) -> io::Result<()> {
        Ok(())
    }
}

#[test]
fn interrupted_calls_are_tried_again(rt: HostRuntime) -> Result<(), Fail> {
    let alloc = rt.alloc();
    let mut reader = Checked::new(Interrupted {
        inner: "[1, 2]".as_bytes(),
        is_next: false,
    });
    let mut output = Vec::<u8>::new(alloc);
    let mut writer = Checked::new(Interrupted {
        inner: &mut output,
        is_next: false,
    });
    let outcome = run(alloc, &["select", "$[1]"], &mut reader, &mut writer);
    check!(rt; matches!(outcome, Ok(0)));
    check!(rt; !reader.failed() && !writer.failed());
    drop(writer);
    check!(rt; output.as_slice() == "[2]\n".as_bytes());
    Ok(())
}

#[test]
fn a_writer_that_takes_nothing_has_failed(rt: HostRuntime) -> Result<(), Fail> {
    let alloc = rt.alloc();
    let mut reader = Checked::new("[1]".as_bytes());
    let mut writer = Checked::new(Full);
    let outcome = run(alloc, &["select", "$"], &mut reader, &mut writer);
    check!(rt; matches!(outcome, Err(Fault::Io)));
    check!(rt; writer.failed() && !reader.failed());
    Ok(())
}
