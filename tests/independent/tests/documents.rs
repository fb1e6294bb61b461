//! The examples of the documents, and each row of their tables of refusals.

use independent::{run, Isin, Refused};

const RUN: &str = "DAY;1
TODAY;NEXT;MODE;CURVE
9000;9001;N;S
END;1
PAR;1
TRANCHE;PCT
1;50
4;200
END;2
CRV;1
TERM;RATE
364;360
END;1
PRC;1
ISIN;PRICE;MATURITY
ES0000001018;1010000;11000
ES0000002024;999999;9100
END;2
POS;2
REF;ISIN;SIDE;BLOCK;TRADED;TITLES;CASH;DATE
1;ES0000001018;B;T;1500;1000;101000000;9101
2;ES0000001018;S;T;400;400;40400000;9001
3;ES0000002024;B;F;9;3;300000;8998
4;ES0000001018;B;C;;0;2500;9000
END;4
";

const STATEMENT: &str = "STM;1
ISIN;BLOCK;SCEN;IM;VM
ES0000001018;T;3;2020000;1000000
ES0000001018;C;0;2500;0
ES0000002024;F;0;1500;-1
TOTAL;1024001;6
END;3
";

/// The statement of a run, or its refusal as the program prints it. The buffer is looked at too.
fn answer(input: impl AsRef<[u8]>) -> String {
    answer_in(input, 100_000)
}

fn answer_in(input: impl AsRef<[u8]>, room: usize) -> String {
    let mut buffer = vec![0xa5; room];
    let (text, kept) = match run(input.as_ref(), &mut buffer) {
        Ok(length) => (
            String::from_utf8(buffer[..length].to_vec()).unwrap(),
            length,
        ),
        Err(Refused {
            number,
            layer,
            line,
            cell,
            reference,
        }) => (
            format!("REFUSED;{number};{layer};{line};{cell};{reference}"),
            0,
        ),
    };
    assert!(buffer[kept..].iter().all(|byte| *byte == 0xa5));
    text
}

fn with(from: &str, to: &str) -> String {
    assert_eq!(RUN.matches(from).count(), 1, "{from}");
    RUN.replace(from, to)
}

/// The run's lines 1 to 20, with the given positions.
fn positions(rows: &[String]) -> String {
    let top: String = RUN.split_inclusive('\n').take(20).collect();
    let mut input = top.replace("TRADED;", "");
    for row in rows {
        input += row;
        input += "\n";
    }
    input + &format!("END;{}\n", rows.len())
}

fn rows(rows: &[&str]) -> String {
    positions(&rows.iter().map(|row| row.to_string()).collect::<Vec<_>>())
}

#[test]
fn the_run_by_hand() {
    assert_eq!(answer(RUN), STATEMENT);
}

#[test]
fn the_gross_rule() {
    assert_eq!(
        answer(with("9001;N;S", "9001;G;S")),
        STATEMENT.replace("T;3", "T;1")
    );
}

#[test]
fn without_the_second_price() {
    let input = with("ES0000002024;999999;9100\nEND;2", "END;1");
    assert_eq!(answer(input), "REFUSED;10;3;0;0;3");
}

#[test]
fn buffers() {
    let exact = STATEMENT.len();
    assert_eq!(answer_in(RUN, exact), STATEMENT);
    assert_eq!(answer_in(RUN, exact + 1), STATEMENT);
    assert_eq!(answer_in(RUN, exact - 1), "REFUSED;14;0;0;0;0");
    assert_eq!(answer_in(RUN, 0), "REFUSED;14;0;0;0;0");
    assert_eq!(
        answer_in(with("9001;N;S", "9001;X;S"), 0),
        "REFUSED;4;1;3;3;0"
    );
}

#[test]
fn the_longest_input() {
    let padded = |length: usize| {
        with(
            ";TRADED;",
            &format!(";{};", "x".repeat(length - RUN.len() + 6)),
        )
    };
    assert_eq!(padded(65_536).len(), 65_536);
    assert_eq!(answer(padded(65_536)), STATEMENT);
    assert_eq!(answer(padded(65_537)), "REFUSED;14;0;0;0;0");
    assert_eq!(answer("x".repeat(65_537)), "REFUSED;14;0;0;0;0");
}

#[test]
fn no_lines() {
    assert_eq!(
        answer(rows(&[])),
        "STM;1\nISIN;BLOCK;SCEN;IM;VM\nTOTAL;0;0\nEND;0\n"
    );
}

#[test]
fn line_one() {
    for wrong in [
        "DAY", "DAY;0", "DAY;256", "DAY;01", "DAY;1;", "PAR;1", "day;1", "DAY;", " DAY;1",
        "DAY;1 ", "", ";1", "DAY;+1", "DAY;1\r",
    ] {
        assert_eq!(answer(with("DAY;1", wrong)), "REFUSED;1;1;1;0;0", "{wrong}");
    }
    assert_eq!(answer(with("DAY;1", "DAY;255")), STATEMENT);
    assert_eq!(answer(""), "REFUSED;1;1;1;0;0");
    assert_eq!(answer("DAY;1"), "REFUSED;1;1;1;0;0");
    assert_eq!(answer(with("POS;2", "POS;x")), "REFUSED;1;1;19;0;0");
    assert_eq!(
        answer(&RUN[..RUN.find("PAR").unwrap()]),
        "REFUSED;1;1;5;0;0"
    );
}

#[test]
fn line_two() {
    assert_eq!(answer("DAY;1\n"), "REFUSED;2;1;2;0;0");
    assert_eq!(answer("DAY;1\nTODAY;NEXT;MODE;CURVE"), "REFUSED;2;1;2;0;0");
    for wrong in ["", "Ref", "REF;REF", "REF ", "REF;DATE"] {
        assert_eq!(answer(with("REF", wrong)), "REFUSED;2;1;20;0;0", "{wrong}");
    }
    let widened = |count: usize, rows: &[&str]| {
        let mut input = positions(
            &rows
                .iter()
                .map(|row| row.to_string() + &";END".repeat(count))
                .collect::<Vec<_>>(),
        );
        input = input.replace(
            "CASH;DATE",
            &("CASH;DATE".to_owned() + &";END".repeat(count)),
        );
        input
    };
    let row = ["4;ES0000001018;B;C;0;2500;9000"];
    assert!(answer(widened(25, &row)).starts_with("STM"));
    assert_eq!(answer(widened(26, &row)), "REFUSED;2;1;20;0;0");
}

#[test]
fn rows_and_cells() {
    assert_eq!(
        answer(with("9000;9001;N;S", "9000;9001;N")),
        "REFUSED;3;1;3;0;0"
    );
    assert_eq!(
        answer(with("9000;9001;N;S", "x;9001;N;S;")),
        "REFUSED;3;1;3;0;0"
    );
    assert_eq!(
        answer(with("9000;9001;N;S", "9000;9001;N;S\r")),
        "REFUSED;4;1;3;4;0"
    );
    assert_eq!(answer(with("1;50", "7;x")), "REFUSED;4;1;7;1;0");
    assert_eq!(answer(with("1;50", "1;10001")), "REFUSED;4;1;7;2;0");
    assert_eq!(answer(with("364;360", "364;-0")), "REFUSED;4;1;12;2;0");
    assert_eq!(answer(with("364;360", "")), "REFUSED;3;1;12;0;0");
    let line = "1;ES0000001018;B;T;1500;1000;101000000;9101";
    assert_eq!(
        answer(with(line, "0;ES0000001018;B;T;1500;0;101000000;9101")),
        "REFUSED;4;1;21;1;0"
    );
    assert_eq!(
        answer(with(line, "1;ES0000001017;B;T;1500;0;101000000;9101")),
        "REFUSED;4;1;21;2;0"
    );
    assert_eq!(
        answer(with(
            line,
            "4294967296;ES0000001018;B;T;1500;0;101000000;9101"
        )),
        "REFUSED;4;1;21;1;0"
    );
}

#[test]
fn titles_by_block() {
    let line = "1;ES0000001018;B;T;1500;1000;101000000;9101";
    for (block, titles, cell) in [
        ("T", "0", 6),
        ("F", "0", 6),
        ("H", "0", 6),
        ("C", "1", 6),
        ("C", "2000001", 6),
        ("T", "2000001", 6),
        ("X", "0", 4),
        ("X", "2000000", 4),
        ("X", "2000001", 4),
        ("", "", 4),
    ] {
        let wrong = format!("1;ES0000001018;B;{block};1500;{titles};101000000;9101");
        assert_eq!(
            answer(with(line, &wrong)),
            format!("REFUSED;4;1;21;{cell};0"),
            "{wrong}"
        );
    }
    // The titles in front of the block.
    for (titles, block, cell) in [
        ("0", "T", 1),
        ("0", "X", 2),
        ("2000000", "X", 2),
        ("2000001", "X", 1),
        ("01", "X", 1),
        ("1", "C", 1),
    ] {
        let input = rows(&[&format!("{titles};{block};ES0000001018;B;1;101000000;9000")])
            .replace("REF;ISIN;SIDE;BLOCK;TITLES;", "TITLES;BLOCK;ISIN;SIDE;REF;");
        assert_eq!(
            answer(input),
            format!("REFUSED;4;1;21;{cell};0"),
            "{titles};{block}"
        );
    }
}

#[test]
fn trailers() {
    for wrong in [
        "END;3", "END", "END;04", "END;4;", "END;", "END;4;4", "END;5",
    ] {
        assert_eq!(
            answer(with("END;4", wrong)),
            "REFUSED;5;1;25;0;0",
            "{wrong}"
        );
    }
    assert_eq!(answer(&RUN[..RUN.len() - 1]), "REFUSED;5;1;25;0;0");
    assert_eq!(answer(with("END;4\n", "")), "REFUSED;5;1;25;0;0");
    assert_eq!(answer(with("END;4", "end;4")), "REFUSED;3;1;25;0;0");
    for behind in ["\n", "x", "END;4\n", "\0", "POS;2\n"] {
        assert_eq!(
            answer(RUN.to_owned() + behind),
            "REFUSED;5;1;26;0;0",
            "{behind}"
        );
    }
    // A byte behind comes before what the margin is refused.
    let input = with("ES0000002024;999999;9100\nEND;2", "END;1") + "x";
    assert_eq!(answer(input), "REFUSED;5;1;25;0;0");
    // A row whose first cell is END is the trailer, also under a name that is skipped.
    let input = with("9000;9001;N;S", "END;9000;9001;N;S").replace("TODAY;N", "END;TODAY;N");
    assert_eq!(answer(input), "REFUSED;5;1;3;0;0");
}

#[test]
fn days() {
    let day = "9000;9001;N;S\nEND;1";
    assert_eq!(answer(with(day, "END;0")), "REFUSED;5;1;3;0;0");
    assert_eq!(
        answer(with(day, "9000;9001;N;S\n9000;9001;N;S\nEND;2")),
        "REFUSED;5;1;5;0;0"
    );
    assert_eq!(
        answer(with(day, "9000;9001;N;S\n9000;9000;N;S\nEND;2")),
        "REFUSED;7;2;4;0;0"
    );
    assert_eq!(
        answer(with(day, "9000;9001;N;S\n9000;x;N;S\nEND;2")),
        "REFUSED;4;1;4;2;0"
    );
    for (next, fits) in [
        ("8999", false),
        ("9000", false),
        ("9001", true),
        ("9010", true),
        ("9011", false),
    ] {
        let answer = answer(with("9000;9001;N;S", &format!("9000;{next};N;S")));
        assert_eq!(answer == "REFUSED;7;2;3;0;0", !fits, "{next}");
    }
}

#[test]
fn keys_and_places() {
    assert_eq!(answer(with("4;200", "1;200")), "REFUSED;6;2;8;0;0");
    assert_eq!(
        answer(with("364;360\nEND;1", "364;360\n364;9\nEND;2")),
        "REFUSED;6;2;13;0;0"
    );
    assert_eq!(
        answer(with("ES0000002024;999999;9100", "ES0000001018;999999;9100")),
        "REFUSED;6;2;17;0;0"
    );
    assert_eq!(
        answer(with("2;ES0000001018;S;T;400", "1;ES0000002024;S;T;400")),
        "REFUSED;6;2;22;0;1"
    );

    let points = |count: usize| -> String {
        let rows: String = (0..count)
            .map(|term| format!("{};{term}\n", 1_000 - term))
            .collect();
        with("364;360\nEND;1\n", &format!("{rows}END;{count}\n"))
    };
    assert!(answer(points(64)).starts_with("STM"));
    assert_eq!(answer(points(65)), "REFUSED;9;2;76;0;0");
    assert_eq!(
        answer(points(65).replace("\n936;", "\n937;")),
        "REFUSED;6;2;76;0;0"
    );

    let prices = |count: usize| -> String {
        let rows: String = (0..count)
            .map(|place| {
                let front = format!("FR{place:09}");
                let isin = Isin::with_check_digit(front.as_bytes().try_into().unwrap()).unwrap();
                format!("{};1;1\n", String::from_utf8(isin.to_vec()).unwrap())
            })
            .collect();
        let both = RUN.find("ES0000001018;101").unwrap();
        let end = both + RUN[both..].find("END;2").unwrap();
        format!(
            "{}{}{rows}END;{}{}",
            &RUN[..both],
            &RUN[both..end],
            count + 2,
            &RUN[end + 5..]
        )
    };
    assert_eq!(answer(prices(254)), STATEMENT);
    assert_eq!(answer(prices(255)), "REFUSED;9;2;272;0;0");
}

#[test]
fn lines_of_the_account() {
    let line = |reference: usize| format!("{reference};ES0000001018;B;T;1;100000;9101");
    let lines = |count: usize| (1..=count).map(line).collect::<Vec<_>>();
    assert!(answer(positions(&lines(1_024))).contains("\nTOTAL;"));
    assert_eq!(answer(positions(&lines(1_025))), "REFUSED;9;2;1045;0;1025");
    let mut last = lines(1_024);
    last.push("1024;ES0000001018;B;T;2000000;100000;1".into());
    assert_eq!(answer(positions(&last)), "REFUSED;6;2;1045;0;1024");
    last[1_024] = "1025;ES0000001018;B;T;2000000;100000;1".into();
    assert_eq!(answer(positions(&last)), "REFUSED;7;2;1045;0;1025");
    last[1_024] = "1025;ES0000001018;B;T;2000000;100000;9000".into();
    assert_eq!(answer(positions(&last)), "REFUSED;8;2;1045;0;1025");
    last[1_024] = "1025;ES0000001018;B;T;2000000;100000".into();
    assert_eq!(answer(positions(&last)), "REFUSED;3;1;1045;0;0");
}

#[test]
fn dates_and_titles_of_lines() {
    for (block, date, fits) in [
        ("T", 8_999, false),
        ("T", 9_000, true),
        ("T", 9_365, true),
        ("T", 9_366, false),
        ("F", 9_000, true),
        ("F", 9_001, false),
        ("H", 0, true),
        ("H", 9_001, false),
        ("C", 9_000, true),
        ("C", 9_001, false),
    ] {
        let titles = u32::from(block != "C");
        let answer = answer(rows(&[&format!(
            "77;ES0000001018;S;{block};{titles};1;{date}"
        )]));
        assert_eq!(
            answer == "REFUSED;7;2;21;0;77",
            !fits,
            "{block} {date}: {answer}"
        );
        assert_eq!(answer.starts_with("STM"), fits);
    }
    let first = "1;ES0000001018;S;H;1999999;1;9000";
    assert!(answer(rows(&[first, "2;ES0000001018;B;H;1;1;9000"])).starts_with("STM"));
    assert_eq!(
        answer(rows(&[first, "2;ES0000001018;B;H;2;1;9000"])),
        "REFUSED;8;2;22;0;2"
    );
    assert!(answer(rows(&[first, "2;ES0000001018;B;F;2;1;9000"])).starts_with("STM"));
}

#[test]
fn lines_without_a_margin() {
    // Looked at by reference, not in the order of the rows.
    let trade = "9;ES0000001018;B;T;1;1;9365";
    let unpriced = "8;US0378331005;B;H;1;1;9000";
    assert_eq!(answer(rows(&[trade, unpriced])), "REFUSED;10;3;0;0;8");
    let input = rows(&[trade, unpriced]).replace("364;360", "363;360");
    assert_eq!(answer(input), "REFUSED;10;3;0;0;8");
    let input = rows(&[trade]).replace("364;360", "363;360");
    assert_eq!(answer(input.clone()), "REFUSED;12;3;0;0;9");
    assert_eq!(
        answer(input.replace("4;200", "5;200")),
        "REFUSED;11;3;0;0;9"
    );
    // Cash-only lines need nothing.
    let cash = "1;US0378331005;S;C;0;7;0";
    assert!(answer(rows(&[cash])).contains("US0378331005;C;0;0;0\nTOTAL;0;0\n"));
}

#[test]
fn a_surplus_in_one_block_lowers_no_other() {
    let input = rows(&[
        "1;ES0000001018;S;F;1;900000000;9000",
        "2;ES0000002024;B;C;0;5;9000",
        "3;ES0000001018;S;C;0;9;9000",
    ]);
    assert!(answer(input).ends_with(
        "ES0000001018;F;0;2020;899899000\nES0000001018;C;0;0;0\nES0000002024;C;0;5;0\nTOTAL;5;2\nEND;3\n"
    ));
}

#[test]
fn a_scenario_without_lines_may_be_the_worst() {
    // A sale today far above the price is a surplus, and the empty scenario 2 is charged nothing.
    let input = rows(&["1;ES0000001018;S;T;1;900000000;9000"]);
    assert!(answer(input).ends_with("ES0000001018;T;2;0;0\nTOTAL;0;3\nEND;1\n"));
}

#[test]
fn the_day_of_two_accounts() {
    let second = [
        "1;ES0000001018;S;T;700;70700000;9101",
        "2;ES0000002024;B;H;7;700000;9000",
    ];
    assert_eq!(
        answer(rows(&second)),
        "STM;1\nISIN;BLOCK;SCEN;IM;VM\nES0000001018;T;1;1414000;-700000\nES0000002024;H;0;3500;-1\nTOTAL;2117501;5\nEND;2\n"
    );
    let both = [
        "1;ES0000001018;B;T;1000;101000000;9101",
        "2;ES0000001018;S;T;400;40400000;9001",
        "3;ES0000002024;B;F;3;300000;8998",
        "4;ES0000001018;B;C;0;2500;9000",
        "5;ES0000001018;S;T;700;70700000;9101",
        "6;ES0000002024;B;H;7;700000;9000",
    ];
    let answer = answer(rows(&both));
    assert!(answer.contains("ES0000001018;T;3;606000;300000\n"));
    assert!(answer.contains("TOTAL;313502;9\n"));
}
