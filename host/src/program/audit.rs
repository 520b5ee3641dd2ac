//! The command `audit`.

use super::arguments::Arguments;
use super::collection::{Collection, Member};
use super::failure::{Failure, DONE, REFUSED, TROUBLE};
use super::in_order::in_order;
use super::input::{Input, Refused};
use super::names::Shown;
use super::progress::Screen;
use super::Ended;
use std::fmt;
use std::io::Write;
use std::path::Path;
use zibewoka::Forecast;

/// `audit DIR`: a line for each list of a collection, in order of path, and a total.
pub fn audit(arguments: &Arguments, out: &mut dyn Write) -> Ended {
    let [folder] = arguments.operands(["DIR"])?;
    let degree = arguments.degree()?;
    let Collection { members, others } =
        Collection::of(Path::new(folder)).map_err(|error| Failure::unread(folder, &error))?;
    let mut total = Total { others, ..Total::default() };
    let mut screen = Screen::new(out);
    let judge = |member: &Member| judged(member, degree);
    in_order(&members, judge, |result| {
        if let Some((member, verdict)) = result {
            writeln!(screen.lines(), "{}: {verdict}", Shown(member.path.as_os_str()))?;
            total.count(&verdict);
        }
        screen.show(total.lists() + total.folders, members.len())
    })?;
    writeln!(screen.lines(), "{total}")?;
    screen.write_lines()?;
    Ok(total.status())
}

/// What becomes of a member of a collection.
enum Verdict {
    Accepted {
        n: u32,
        k: usize,
        degree: u32,
        size: Forecast,
    },
    Refused(Refused),
    Unread(String),
    /// A folder: how many lists it has is not known.
    FolderUnread(String),
}

impl fmt::Display for Verdict {
    fn fmt(&self, f: &mut fmt::Formatter) -> fmt::Result {
        match self {
            Verdict::Accepted { n, k, degree, size: Forecast { intervals, cuts } } => {
                write!(f, "accepted: n {n}, k {k}, d {degree}, K {intervals}, cuts {cuts}")
            }
            Verdict::Refused(refused) => write!(f, "{refused}"),
            Verdict::Unread(error) | Verdict::FolderUnread(error) => write!(f, "can't be read: {error}"),
        }
    }
}

fn judged(member: &Member, degree: Option<u32>) -> Verdict {
    if let Some(trouble) = &member.trouble {
        return Verdict::FolderUnread(trouble.to_string());
    }
    match Input::read_regular(&member.path) {
        Err(error) => Verdict::Unread(error.to_string()),
        Ok(input) => weighed(&input, degree).unwrap_or_else(Verdict::Refused),
    }
}

/// A list that is accepted, with its size when it is balanced.
fn weighed(input: &Input, degree: Option<u32>) -> Result<Verdict, Refused> {
    let (list, own_degree) = input.run_list()?;
    let degree = degree.unwrap_or(own_degree);
    let size = list.forecast(degree)?;
    Ok(Verdict::Accepted { n: list.n(), k: list.runs(), degree, size })
}

/// How many lists of a collection were accepted, refused and not read; how many folders were not read; and how many files
/// are no lists.
#[derive(Default)]
struct Total {
    accepted: usize,
    refused: usize,
    unread: usize,
    folders: usize,
    others: usize,
}

impl Total {
    fn count(&mut self, verdict: &Verdict) {
        match verdict {
            Verdict::Accepted { .. } => self.accepted += 1,
            Verdict::Refused(_) => self.refused += 1,
            Verdict::Unread(_) => self.unread += 1,
            Verdict::FolderUnread(_) => self.folders += 1,
        }
    }

    fn lists(&self) -> usize {
        self.accepted + self.refused + self.unread
    }

    /// That something was not read stands over that something was refused: less is known then.
    fn status(&self) -> u8 {
        match self {
            Total { unread: 1.., .. } | Total { folders: 1.., .. } => TROUBLE,
            Total { refused: 1.., .. } => REFUSED,
            _ => DONE,
        }
    }
}

impl fmt::Display for Total {
    fn fmt(&self, f: &mut fmt::Formatter) -> fmt::Result {
        let Total { accepted, refused, unread, folders, others } = self;
        write!(f, "{}: {accepted} accepted, {refused} refused, {unread} not read", counted(self.lists(), "list"))?;
        if *folders > 0 {
            write!(f, "; {} not read", counted(*folders, "folder"))?;
        }
        if *others > 0 {
            write!(f, "; {} left out", counted(*others, "other file"))?;
        }
        Ok(())
    }
}

fn counted(count: usize, name: &str) -> String {
    format!("{count} {name}{}", if count == 1 { "" } else { "s" })
}

#[cfg(test)]
mod tests {
    use super::*;

    #[test]
    fn totals() {
        let total = |accepted, refused, unread, folders, others| {
            let total = Total { accepted, refused, unread, folders, others };
            (total.status(), total.to_string())
        };
        for (status, text, total) in [
            (DONE, "0 lists: 0 accepted, 0 refused, 0 not read", total(0, 0, 0, 0, 0)),
            (DONE, "1 list: 1 accepted, 0 refused, 0 not read; 1 other file left out", total(1, 0, 0, 0, 1)),
            (REFUSED, "3 lists: 1 accepted, 2 refused, 0 not read", total(1, 2, 0, 0, 0)),
            (TROUBLE, "3 lists: 1 accepted, 1 refused, 1 not read; 2 other files left out", total(1, 1, 1, 0, 2)),
            (TROUBLE, "1 list: 0 accepted, 1 refused, 0 not read; 1 folder not read", total(0, 1, 0, 1, 0)),
            (TROUBLE, "1 list: 1 accepted, 0 refused, 0 not read; 2 folders not read", total(1, 0, 0, 2, 0)),
        ] {
            assert_eq!(total, (status, text.to_owned()));
        }
    }
}
