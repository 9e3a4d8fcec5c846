//! The listing that the proved program prints, read strictly and checked before anyone relies on it.

#[derive(Clone, Debug, PartialEq, Eq)]
pub enum Listing {
    Accepted(Families),
    Refused(u32),
}

#[derive(Clone, Debug, PartialEq, Eq)]
pub struct Families {
    pub splits: u32,
    /// The row numbers of each family, counted from 0.
    pub groups: Vec<Vec<usize>>,
}

/// The form alone: every line as document 01 has it, and each group as long as its size says.
pub fn read(text: &[u8]) -> Result<Listing, String> {
    let text = std::str::from_utf8(text).map_err(|_| "the listing is not text".to_string())?;
    let lines = text
        .strip_suffix('\n')
        .ok_or("the listing does not end in a line's end")?;
    let mut lines = lines.split('\n');
    let first = lines.next().unwrap_or_default();
    if let Some(refused) = first.strip_prefix("refused ").and_then(number) {
        return match lines.next() {
            None => Ok(Listing::Refused(refused)),
            Some(_) => Err("the listing goes on after its refusal".into()),
        };
    }
    let (count, splits) =
        accepted(first).ok_or("line 1 of the listing is neither accepted nor refused")?;
    let groups = lines
        .zip(2..)
        .map(|(line, at)| group(line).map_err(|what| format!("line {at} of the listing: {what}")))
        .collect::<Result<Vec<_>, _>>()?;
    if groups.len() != count as usize {
        let found = groups.len();
        return Err(format!("the listing has {found} groups and says {count}"));
    }
    Ok(Listing::Accepted(Families { splits, groups }))
}

/// The number of groups and of splits.
fn accepted(line: &str) -> Option<(u32, u32)> {
    let (groups, splits) = line
        .strip_prefix("accepted groups ")?
        .split_once(" splits ")?;
    Some((number(groups)?, number(splits)?))
}

fn group(line: &str) -> Result<Vec<usize>, String> {
    let (size, rows) = line.split_once(": ").ok_or("not a group")?;
    let size = number(size).ok_or("not a size")?;
    let rows = rows
        .split(' ')
        .map(|row| number(row).map(|row| row as usize))
        .collect::<Option<Vec<_>>>()
        .ok_or("not row numbers")?;
    if rows.len() != size as usize {
        return Err(format!("{} rows under the size {size}", rows.len()));
    }
    Ok(rows)
}

/// Digits as they are printed: no sign and no zero in front.
fn number(text: &str) -> Option<u32> {
    let number: u32 = text.parse().ok()?;
    (number.to_string() == text).then_some(number)
}

impl Families {
    /// Each row of the batch stands in exactly one family: as many as there are, and none twice.
    pub fn check(&self, rows: usize) -> Result<(), String> {
        let listed: usize = self.groups.iter().map(Vec::len).sum();
        if listed != rows {
            return Err(format!("{listed} rows are listed; the batch has {rows}"));
        }
        let mut seen = vec![false; rows];
        for &row in self.groups.iter().flatten() {
            match seen.get_mut(row) {
                None => return Err(format!("row {row} is listed; the batch has {rows} rows")),
                Some(true) => return Err(format!("row {row} is listed twice")),
                Some(mark) => *mark = true,
            }
        }
        Ok(())
    }
}

#[cfg(test)]
mod tests {
    use super::*;

    const P1: &str = "accepted groups 2 splits 1\n2: 2 3\n2: 0 1\n";

    fn families(text: &str) -> Families {
        match read(text.as_bytes()) {
            Ok(Listing::Accepted(families)) => families,
            other => panic!("{text:?} gave {other:?}"),
        }
    }

    #[test]
    fn p1_is_read() {
        let p1 = families(P1);
        assert_eq!(p1.splits, 1);
        assert_eq!(p1.groups, [[2, 3], [0, 1]]);
        assert_eq!(p1.check(4), Ok(()));
    }

    #[test]
    fn no_rows_have_no_groups() {
        let none = families("accepted groups 0 splits 0\n");
        assert_eq!(none.check(0), Ok(()));
        assert!(none.check(1).is_err());
    }

    #[test]
    fn a_refusal_is_read() {
        assert_eq!(read(b"refused 7\n"), Ok(Listing::Refused(7)));
    }

    #[test]
    fn another_form_is_an_error() {
        for text in [
            "",
            "\n",
            "refused 7",
            "refused 7\n\n",
            "refused 07\n",
            "refused\n",
            "accepted groups 1 splits 0\n2: 0 1",
            "accepted groups 1 splits 0\n2: 0 1\n\n",
            "accepted groups 2 splits 0\n2: 0 1\n",
            "accepted groups 0 splits 0\n2: 0 1\n",
            "accepted groups 1 splits 0\n2: 0 1 2\n",
            "accepted groups 1 splits 0\n3: 0 1\n",
            "accepted groups 1 splits 0\n0: \n",
            "accepted groups 1 splits 0\n0:\n",
            "accepted groups 1 splits 0\n2: 0  1\n",
            "accepted groups 1 splits 0\n2: 0 +1\n",
            "accepted groups 1 splits 0\n2: 0 1\r\n",
            "accepted groups 1\n2: 0 1\n",
            "accepted groups 1 splits 0 \n2: 0 1\n",
        ] {
            assert!(read(text.as_bytes()).is_err(), "{text:?}");
        }
        assert!(read(b"refused \xff\n").is_err());
    }

    #[test]
    fn a_damaged_partition_is_an_error() {
        let with_rows = |rows: &str| families(&format!("accepted groups 1 splits 0\n3: {rows}\n"));
        assert_eq!(with_rows("0 2 1").check(3), Ok(()));
        assert!(with_rows("0 2 2").check(3).unwrap_err().contains("twice"));
        assert!(with_rows("0 1 3").check(3).unwrap_err().contains("row 3"));
        assert!(with_rows("0 1 2").check(4).unwrap_err().contains("3 rows"));
        assert!(with_rows("0 1 2").check(2).unwrap_err().contains("3 rows"));
    }
}
