//! Names beyond ASCII: to text and back, and in all that the tool draws and says.

mod common;

use ciztarmo::Work;
use ciztarmo_text::commands;
use ciztarmo_text::lines::is_plain;
use common::{block, blocks, name, show};

/// A block of values with these names, all 0.
fn values(names: &[String]) -> Vec<u8> {
    let mut body = (names.len() as u16).to_le_bytes().to_vec();
    for each in names {
        body.extend(name(each));
        body.extend([0; 8]);
    }
    block(192, &body)
}

fn output(done: Result<commands::Done, String>) -> String {
    String::from_utf8(done.unwrap().output).unwrap()
}

/// Every character of the planes that have letters, and some of the others, come back from their
/// text, alone and between others.
#[test]
fn characters_come_back() {
    let allowed = |c: &char| *c != '\u{7f}' && (*c < '\u{30000}' || u32::from(*c) % 16 > 13);
    let all: Vec<char> = ('\u{20}'..=char::MAX).filter(allowed).collect();
    assert_eq!(all.len(), 0x3_0000 - 0x800 - 0x21 + 2 * 0xe_0000 / 16);
    for some in all.chunks(256) {
        let alone = some.iter().map(|c| c.to_string());
        let between = some.iter().map(|c| format!("\u{10ffff}{c}a"));
        let mut names: Vec<String> = alone.chain(between).collect();
        names.sort();
        let block = values(&names);
        let text = show(&block);
        assert_eq!(blocks(&text), block, "{text}");
    }
}

#[test]
fn names_without_quotes() {
    let plain = ["Zürich", "_é", "駅.東京", "Αθήνα::a1", "é٣", "ß"];
    let others = [
        "",
        "🚌",
        "e\u{301}",
        "²",
        "٣",
        ".é",
        "a–b",
        "\u{feff}a",
        "é ",
        "\u{80}",
    ];
    assert!(plain.iter().all(|n| is_plain(n)));
    assert!(!others.iter().any(|n| is_plain(n)));
    for bare in plain {
        let text = format!("run {bare} length 1\n");
        assert_eq!(show(&blocks(&text)), text);
        let quoted = format!("run \"{bare}\" length 1\n");
        assert_eq!(show(&blocks(&quoted)), text);
    }
    for other in others {
        let text = format!("run \"{other}\" length 1\n");
        assert_eq!(show(&blocks(&text)), text);
    }
}

/// One letter in two spellings is two names, and byte order is that of the characters' numbers.
#[test]
fn spellings_and_order() {
    let text = "values\n  value \"e\u{301}\" 1\n  value é 2\n  value \"\u{ffff}\" 3\n  value \u{10000} 4\n";
    assert_eq!(show(&blocks(text)), text);
    let turned = "values\n  value \"\u{10000}\" 4\n  value \"\u{ffff}\" 3\n";
    let said = commands::blocks("t", turned.as_bytes(), false).unwrap_err();
    assert!(said.starts_with("t:3: refused 6: "), "{said}");
}

#[test]
fn limits_count_bytes() {
    let run = |name: &str| format!("run {name} length 1\n");
    for name in [
        "é".repeat(127),
        "駅".repeat(85),
        format!("{}a", "é".repeat(127)),
    ] {
        let text = run(&name);
        assert_eq!(show(&blocks(&text)), text);
    }
    for name in ["é".repeat(128), format!("{}b", "駅".repeat(85))] {
        let said = commands::blocks("t", run(&name).as_bytes(), false).unwrap_err();
        assert!(said.starts_with("t:1: refused 3: "), "{said}");
    }
}

const LINE: &str = "\
set
  struct Línea variable
    owner paradas paths número
    field número at 0 primitive u8 size 1
    field paradas array Línea::paradas variable count número
      element primitive parada size 4

run Línea length 13
  value paradas.número 3

run Línea length 13
";

#[test]
fn drawn_and_told() {
    let text = LINE.as_bytes();
    let tree = output(commands::tree("t", text));
    let lines = [
        "Línea, alignment 1",
        "  parameter paradas.número",
        "  count = 1 + (paradas.número * 4)",
    ];
    assert_eq!(tree.lines().take(3).collect::<Vec<_>>(), lines);
    assert!(tree.contains("[field paradas at 1]"), "{tree}");
    let said = "t:8: Línea: 13 bytes of 13\nt:11: Línea: refused 21: the value paradas.número is missing\n";
    assert_eq!(output(commands::lengths("t", text)), said);
    let told = "Línea, 1 parameter\n  paradas.número: count of field paradas\n";
    assert_eq!(output(commands::parameters("t", text, "Línea")), told);
    let wrong = LINE.replace("paths número", "paths numero");
    let said = commands::check("t", wrong.as_bytes()).unwrap_err();
    let help = "asks for número, which owner paradas does not have (column 55)";
    assert!(
        said.starts_with("t:5: refused 12: ") && said.contains(help),
        "{said}"
    );
}

/// Formulas are left out where they are long: by their letters, not by their bytes.
#[test]
fn formulas_by_letters() {
    let of = |letter: &str| {
        let n = letter.repeat(50);
        let text = format!("set\n  array A variable count {n}\n    owner A paths {n}\n    element primitive p size 4\n");
        output(commands::tree("t", text.as_bytes()))
    };
    assert!(of("n").contains("count = A."));
    assert_eq!(of("é").replace('é', "n"), of("n"));
}

fn map(text: &str, ty: &str, svg: bool) -> String {
    let asked = commands::Asked {
        name: ty.to_string(),
        svg,
        ..Default::default()
    };
    output(commands::map("t", text.as_bytes(), &asked))
}

/// A name that its box does not hold is cut between characters.
#[test]
fn maps() {
    let rows = map(LINE, "Línea", false);
    assert!(rows.contains("    0     0     1    número\n"), "{rows}");
    let (long, whole) = ("é".repeat(60), "ñ".repeat(7));
    let text = format!("set\n  struct S variable\n    field {long} at 0 primitive p size 1\n    field \"\u{ffff}駅駅駅駅駅\" at 1 primitive p size 1\n    field {whole} at 2 primitive p size 1\n\nrun S length 3\n");
    let drawn = map(&text, "S", true);
    assert!(drawn.contains(">ééééé..<"), "{drawn}");
    assert!(drawn.contains(&format!(">{whole}<")), "{drawn}");
    assert!(
        drawn.contains(&format!("<title>{long} (bytes 0 to 0)")),
        "{drawn}"
    );
    assert!(drawn.contains(">\"\u{fffd}駅..<"), "{drawn}");
    assert!(!drawn.contains('\u{ffff}'));
}

/// What a build stumbles on at 17 is shown by its first characters.
#[test]
fn long_names_are_cut() {
    let (o, p) = ("é".repeat(64), "駅".repeat(43));
    let text = format!("set\n  union U variable\n    owner {o} paths {p}\n");
    let said = commands::check("t", text.as_bytes()).unwrap_err();
    let cut = format!("{}.. of 258 bytes", "é".repeat(40));
    assert!(said.contains(&cut), "{said}");
    assert!(Work::new().build_set(&blocks(&text)).is_err());
}
