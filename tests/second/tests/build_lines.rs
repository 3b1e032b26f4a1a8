//! What the program `build` prints of lines, and complains of.

use second::lines::{lines, Said};

const RESET: &str = "a1 00 00 00 00 00 00 00 00 00 00 00\n";

fn says(input: &[u8], out: &str, err: &str) {
    let wanted = Said {
        out: out.to_string(),
        err: err.to_string(),
    };
    assert_eq!(lines(input), wanted, "{}", String::from_utf8_lossy(input));
}

/// One line that is no order, for this reason.
fn wrong(line: &[u8], why: &str) {
    says(line, "", &format!("build: line 1: {why}\n"));
}

#[test]
fn orders() {
    let c6 = "a1 08 0e 00 01 00 00 00 00 ec 00 00\n";
    for line in [
        "length=512 count=1 sectors_per_block=1 command=0xec protocol=4 direction=from",
        "direction=1 protocol=0x4 command=236 sectors_per_block=01 count=0x1 length=0x200",
        "\tlength=512 \t count=1 sectors_per_block=1 command=0xEC protocol=4 direction=0x1 \r",
    ] {
        says(line.as_bytes(), c6, "");
        says(format!("{line}\n").as_bytes(), c6, "");
    }
    says(
        b"sectors_per_block=1 protocol=3 extend=1",
        "85 07 00 00 00 00 00 00 00 00 00 00 00 00 00 00\n",
        "",
    );
    says(b"protocol=3", "refused 23\n", "");
    says(b"direction=3", "refused 23\n", "");
}

#[test]
fn lines_that_are_passed_over() {
    for input in [
        "",
        "\n",
        "\r\n",
        " \t \n\n",
        "#",
        "# length=1\n#x\n",
        "\t\r\n",
    ] {
        says(input.as_bytes(), "", "");
    }
    says(b"\n#\nsectors_per_block=1\n\n", RESET, "");
}

#[test]
fn words_that_are_wrong() {
    wrong(b"length", "length has no =");
    wrong(b" #x=1", "#x=1 names no field of an order");
    wrong(b"=1", "=1 names no field of an order");
    wrong(b"Length=1", "Length=1 names no field of an order");
    wrong(b"length=", "length= has no number");
    wrong(b"length=0x", "length=0x has no number");
    wrong(b"length=0X1", "length=0X1 has no number");
    wrong(b"length=-1", "length=-1 has no number");
    wrong(b"length=1=1", "length=1=1 has no number");
    wrong(b"direction=From", "direction=From has no number");
    wrong(b"protocol=from", "protocol=from has no number");
    wrong(b"length=1\rcount=1", "length=1\\x0dcount=1 has no number");
    wrong(
        b"a\\\x1b\xFF=1",
        "a\\\\\\x1b\\xff=1 names no field of an order",
    );
    wrong(
        b"length=1 length=1",
        "length=1 gives its field a second time",
    );
    wrong(b"length=1 length=x", "length=x has no number");
    wrong(
        b"count=1 direction=to direction=2 x",
        "direction=2 gives its field a second time",
    );
}

#[test]
fn numbers_that_are_too_large() {
    for (field, most) in [("length", u32::MAX), ("count", 0xFFFF), ("direction", 0xFF)] {
        says(format!("{field}={most}").as_bytes(), "refused 23\n", "");
        says(
            format!("{field}=0x000{most:X}").as_bytes(),
            "refused 23\n",
            "",
        );
        for number in [u64::from(most) + 1, 10 * u64::from(most), u64::MAX] {
            let word = format!("{field}={number}");
            wrong(
                word.as_bytes(),
                &format!("{word} has a number too large for its field"),
            );
        }
        let word = format!("{field}={}", "9".repeat(100));
        wrong(
            word.as_bytes(),
            &format!("{word} has a number too large for its field"),
        );
    }
}

/// A line of 4,096 bytes is read, with what ends it; a longer one is not, be it
/// a comment, and the next is.
#[test]
fn long_lines() {
    let order = "sectors_per_block=1";
    let line = order.to_string() + &" ".repeat(4096 - order.len());
    says(format!("{line}\n").as_bytes(), RESET, "");
    for long in [format!("{line} "), format!("{line}\r"), "#".repeat(4097)] {
        let input = format!("{long}\n{order}\n{long}");
        let [first, last] = [1, 3].map(|at| format!("build: line {at}: more than 4096 bytes\n"));
        says(input.as_bytes(), RESET, &(first + &last));
    }
}
