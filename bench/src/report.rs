//! The tables of classes, as text that is also Markdown.
use crate::class::{Beside, Class};
use crate::measure::{median, Measured};

pub const NO_PIXMAN: &str = "pixman is not installed: its rows are left out.\n";

/// Of the classes that are played beside one side: the medians of each, and the results of the single processes. Beside
/// the original the same follows without its locks.
pub fn table(beside: Beside, classes: &[Class], results: &[Measured], runs: &[Vec<Measured>]) -> String {
    let (is_original, has_limit) = (beside == Beside::Original, beside == Beside::Original || beside.is_pixman());
    let mut text = head(beside.name(), is_original, has_limit);
    for (i, (class, m)) in classes.iter().zip(results).enumerate().filter(|(_, (class, _))| belongs(class, beside)) {
        let times = |time: f64, by: f64, of: fn(&Measured) -> f64| {
            let ratios: Vec<f64> = runs.iter().map(|run| of(&run[i])).collect();
            format!(" {} | {} | {} |", nanoseconds(time), ratio(by), range(&ratios))
        };
        text += &format!("| {} | {} |{}", class.name, nanoseconds(m.ours), times(m.theirs, m.ratio, |m| m.ratio));
        if is_original {
            text += &times(m.unlocked, m.unlocked_ratio, |m| m.unlocked_ratio);
        }
        text += &if has_limit { format!(" {} |\n", ratio(m.speed)) } else { "\n".to_string() };
    }
    text
}

fn head(theirs: &str, is_original: bool, has_limit: bool) -> String {
    let (unlocked, its_line) =
        if is_original { (" without its locks ns | ratio | from - to |", "---:|---:|---|") } else { ("", "") };
    let (title, line) = if has_limit { (" same rows |", "---:|") } else { ("", "") };
    format!(
        "| class | ours ns | {theirs} ns | ratio | from - to |{unlocked}{title}\n\
         |---|---:|---:|---:|---|{its_line}{line}\n"
    )
}

fn belongs(class: &Class, beside: Beside) -> bool {
    class.beside == beside || class.beside.is_pixman() && beside.is_pixman()
}

/// Our times with this archive and with another one, whose runs took turns; and the ratios of both to the other side.
pub fn archives(classes: &[Class], ours: &[Vec<Measured>], others: &[Vec<Measured>]) -> String {
    let mut text =
        String::from("| class | other ns | ours ns | ours by other | from - to | beside | other ratio | our ratio |\n");
    text += "|---|---:|---:|---:|---|---|---:|---:|\n";
    for (i, class) in classes.iter().enumerate() {
        let times = |runs: &[Vec<Measured>]| -> Vec<f64> { runs.iter().map(|run| run[i].ours).collect() };
        let beside = |runs: &[Vec<Measured>]| ratio(median(runs.iter().map(|run| run[i].ratio).collect()));
        let (before, now) = (times(others), times(ours));
        let change: Vec<f64> = before.iter().zip(&now).map(|(before, now)| now / before).collect();
        text += &format!("| {} | {} | {} |", class.name, nanoseconds(median(before)), nanoseconds(median(now)));
        text += &format!(" {} | {} |", ratio(median(change.clone())), range(&change));
        text += &format!(" {} | {} | {} |\n", class.beside.name(), beside(others), beside(ours));
    }
    text
}

/// Remarks, each with the classes to which it belongs.
pub fn notes(classes: &[Class]) -> String {
    let mut seen: Vec<&str> = Vec::new();
    let mut text = String::new();
    for class in classes.iter().filter(|class| !class.note.is_empty()) {
        if seen.contains(&class.note) {
            continue;
        }
        seen.push(class.note);
        let of: Vec<&str> = classes.iter().filter(|c| c.note == class.note).map(|c| &*c.name).collect();
        text += &format!("- {}: {}.\n", of.join("; "), class.note);
    }
    text
}

/// With one decimal where it is short.
pub fn nanoseconds(time: f64) -> String {
    if time.is_nan() {
        return String::new();
    }
    if time < 100.0 {
        return format!("{time:.1}");
    }
    whole(time)
}

/// With commas.
pub fn whole(number: f64) -> String {
    let digits = format!("{number:.0}");
    let mut text = String::new();
    for (i, digit) in digits.chars().enumerate() {
        if i > 0 && (digits.len() - i) % 3 == 0 {
            text.push(',');
        }
        text.push(digit);
    }
    text
}

/// From the least to the greatest.
pub fn range(numbers: &[f64]) -> String {
    if numbers.iter().any(|n| n.is_nan()) {
        return String::new();
    }
    let least = ratio(numbers.iter().copied().fold(f64::INFINITY, f64::min));
    let most = ratio(numbers.iter().copied().fold(0.0, f64::max));
    if least == most {
        return least;
    }
    format!("{least} - {most}")
}

fn ratio(number: f64) -> String {
    if number.is_nan() {
        return String::new();
    }
    format!("{number:.2}")
}
