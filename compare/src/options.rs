//! The command line.

use second::xlen::Xlen;

/// What is printed on wrong use.
pub const USAGE: &str = "usage: compare [--seed S] [--times T] [--width 32|64] [--kind KIND]
       compare [--seed S] --width 32|64 --case KIND:NUMBER
";

/// What the command line asks for.
pub struct Options {
    pub seed: u64,
    /// How many times the usual number of random cases.
    pub times: u64,
    /// The widths of the harts.
    pub widths: Vec<Xlen>,
    /// The one kind of cases to run, if it is only one.
    pub kind: Option<String>,
    /// The one case to run, if it is only one.
    pub case: Option<(String, u64)>,
}

/// The name of a kind that there is.
fn known(name: &str) -> Result<String, String> {
    if crate::kinds::KINDS.iter().any(|kind| kind.name == name) {
        Ok(name.to_string())
    } else {
        Err(format!("there is no kind {name}\n"))
    }
}

/// Reads the words of the command line, or says what is wrong with them.
pub fn read(mut words: impl Iterator<Item = String>) -> Result<Options, String> {
    let widths = vec![Xlen::X64, Xlen::X32];
    let mut options = Options { seed: 1, times: 1, widths, kind: None, case: None };
    while let Some(word) = words.next() {
        let value = words.next().ok_or(format!("{word} needs a value\n"))?;
        let number = |text: &str| text.parse().map_err(|_| format!("{text} is no number\n"));
        match word.as_str() {
            "--seed" => options.seed = number(&value)?,
            "--times" => options.times = number(&value)?,
            "--width" => {
                let width = Xlen::from_bits(number(&value)?);
                options.widths = vec![width.ok_or(format!("there is no width {value}\n"))?];
            }
            "--case" => {
                let (kind, index) =
                    value.split_once(':').ok_or(format!("{value} is no KIND:NUMBER\n"))?;
                options.case = Some((known(kind)?, number(index)?));
            }
            "--kind" => options.kind = Some(known(&value)?),
            _ => return Err(format!("{word} is not known\n")),
        }
    }
    if options.case.is_some() && options.widths.len() != 1 {
        return Err("a case needs its width\n".to_string());
    }
    Ok(options)
}
