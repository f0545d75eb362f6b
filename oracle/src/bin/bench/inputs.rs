//! The texts that are measured: ordinary ones, and for each scanner one that makes it work as hard as it can.

use oracle::Options;

pub const SMALL: usize = 64 << 10;
pub const LARGE: usize = 8 * SMALL;
pub const SHEETS: &str = "bench sheets";

/// A text and the options to walk it with.
pub struct Input {
    pub name: String,
    pub text: Vec<u8>,
    pub options: Options,
}

/// Numbers that look random and are the same at every run.
struct Dice(u64);

impl Dice {
    fn below(&mut self, n: usize) -> usize {
        self.0 = self.0.wrapping_mul(6_364_136_223_846_793_005).wrapping_add(1_442_695_040_888_963_407);
        (self.0 >> 33) as usize % n
    }

    fn pick<'a>(&mut self, words: &'a str) -> &'a str {
        let words: Vec<&str> = words.split_whitespace().collect();
        words[self.below(words.len())]
    }
}

/// Pieces one after the other until the text is of the smaller size.
fn made(name: &str, digits: u8, piece: impl FnMut(&mut Dice) -> String) -> Input {
    sized(name, SMALL, digits, piece)
}

fn sized(name: &str, size: usize, digits: u8, mut piece: impl FnMut(&mut Dice) -> String) -> Input {
    let (mut dice, mut text) = (Dice(1), String::new());
    while text.len() < size {
        text += &piece(&mut dice);
    }
    Input { name: name.into(), text: text.into_bytes(), options: Options { digits, ..Options::O200K } }
}

const WORDS: &str = "the receiver alarm tone squelch cover battery doesn't close it's charged again on bench two with \
    new aerial and old plug before check three was passed";
const UNITS: &str = "V A mA dBm dB Hz kHz ms %";
const MARKS: &str = "! ? , . ; : - -- ... () [] {} == += /* */ // #! <> \"\" ~ @ & | ^ %%";
const CYRILLIC: &str = "приёмник сигнал тревоги Проверка питания антенна пройдена без замечаний и с батареей Новый ток";
/// The one line of a bench sheet, with words in Cyrillic.
const CYRILLIC_LINE: &str = "КНИ 4774 Гц: 0.53 %, 9548 Гц: 1.53 %\n";
const HEBREW: &str = "מקלט אזעקה צליל בדיקה עברה ללא הערות סוללה חדשה אנטנה ושוב מתח";
const CHINESE: &str = "接收机 报警音 灵敏度 测试 通过 电池 电压 温度 范围 检查 三次 没有 问题 天线 更换 之后 再次 测量";
const ACCENTS: &str = "přijímač zkouška prošla Žádné závady napětí baterie Kiểm tra điện áp máy thu đã đạt Không có lỗi \
    Prüfer Løvgren Čapek déjà";

pub fn ordinary() -> Vec<Input> {
    let word = |words: &'static str| move |dice: &mut Dice| format!("{} ", dice.pick(words));
    vec![
        made(SHEETS, 1, sheet_line),
        sized("one line of a bench sheet", 1, 1, sheet_line),
        sized("one line, Cyrillic", 1, 1, |_| CYRILLIC_LINE.into()),
        made("small words", 1, word(WORDS)),
        made("capitals", 1, |dice| format!("{} ", dice.pick(WORDS).to_uppercase())),
        made("one word a line", 1, |dice| format!("{}\n", dice.pick(WORDS))),
        made("numbers of up to six digits", 1, number),
        made("punctuation", 1, |dice| format!("{}{}", dice.pick(MARKS), &"  \n a"[..dice.below(3)])),
        made("Cyrillic", 1, word(CYRILLIC)),
        made("Hebrew", 1, word(HEBREW)),
        made("Chinese", 1, |dice| dice.pick(CHINESE).to_string() + ["", "", "，", "。\n"][dice.below(4)]),
        made("accents, Czech and Vietnamese", 1, word(ACCENTS)),
        made("mixed", 1, mixed),
        made("numbers of up to 60 digits, mode 1", 1, long_number),
        made("numbers of up to 60 digits, mode 2", 2, long_number),
    ]
}

fn number(dice: &mut Dice) -> String {
    let digits = 1 + dice.below(6) as u32;
    format!("{} ", dice.below(10_usize.pow(digits)))
}

fn long_number(dice: &mut Dice) -> String {
    let digits: String = (0..1 + dice.below(60)).map(|_| char::from(b'0' + dice.below(10) as u8)).collect();
    digits + " "
}

fn mixed(dice: &mut Dice) -> String {
    match dice.below(6) {
        0 => sheet_line(dice),
        1 => format!("{} ", dice.pick(CYRILLIC)),
        2 => format!("{} ", dice.pick(HEBREW)),
        3 => format!("{}。", dice.pick(CHINESE)),
        4 => format!("{} ", dice.pick(ACCENTS)),
        _ => format!("{} °C — {} µV\n", dice.below(100), dice.below(1000)),
    }
}

fn sheet_line(dice: &mut Dice) -> String {
    let (n, m, unit) = (dice.below(10_000), dice.below(100), dice.pick(UNITS).to_string());
    match dice.below(6) {
        0 => format!("THD {n} Hz: 0.{m} %, {} Hz: 1.{m} %\n", 2 * n),
        1 => format!("Receiver {n}-B, bench {m}, 2026-03-14 09:{m:02}\n"),
        2 => format!("Supply {m}.8 {unit}, 0.{n} A; idle 0.05 A\n"),
        3 => format!("Alarm tone {m}: {n}/400 ms; tone 2: 675/800 {unit}\n"),
        4 => format!("\tTemperature -{m} C ... +{m} C,  passed\n\n"),
        _ => format!("Note: the {} {} {} (don't ship before check {m})\n", dice.pick(WORDS), dice.pick(WORDS), unit),
    }
}

/// Bench sheets of four sizes, in ASCII, and the same sheets with another last character.
pub fn sheets() -> Vec<Input> {
    let cut = |name: &str, size: usize, last: &str| {
        let mut input = sized(name, size, 1, sheet_line);
        input.text.truncate(size - last.len());
        input.text.extend(last.as_bytes());
        input
    };
    let sizes = [SMALL / 8, SMALL / 4, SMALL / 2, SMALL];
    let ascii = sizes.map(|size| cut(SHEETS, size, ""));
    let others = sizes.map(|size| cut("bench sheets, then a degree sign", size, "°"));
    ascii.into_iter().chain(others).collect()
}

/// Texts that make a scanner run as long as it can, or the look-up go through every range; at most `size` bytes long.
pub fn worst(size: usize) -> Vec<Input> {
    let run = |name: &str, digits: u8, first: &str, again: &str, last: &str| Input {
        name: name.into(),
        text: (first.to_string() + &again.repeat((size - first.len() - last.len()) / again.len()) + last).into_bytes(),
        options: Options { digits, ..Options::O200K },
    };
    vec![
        run("a run of digits, mode 1", 1, "", "7", ""),
        run("a run of digits, mode 2", 2, "", "7", ""),
        run("capitals after a caseless letter", 1, "\u{5D0}", "A", ""),
        run("a run of small letters", 1, "", "a", ""),
        run("spaces, then a word", 1, "", " ", "a"),
        run("newline, then spaces and a word", 1, "\n", " ", "a"),
        run("spaces with newlines", 1, "", "       \n", "  a"),
        run("a run of punctuation", 1, "", "!", ""),
        run("a punctuation mark, then newlines and slashes", 1, "!", "\n/", ""),
        run("a run of marks", 1, "", "\u{301}", ""),
        run("ideographic spaces, each before a letter", 1, "", "\u{3000}a", ""),
    ]
}
