//! Who owns which subaddress, and who has which member number: the lines
//! `owner SUBADDRESS NAME` and `owner member NUMBER NAME`.

use super::tokens::{mismatch, shown, Mismatch, Tokens};
use super::unseen::first_unseen;

const FIRST: usize = 1;
const LAST: usize = 30;

/// The owners' names by subaddress.
#[derive(Clone, Debug, Default, PartialEq, Eq)]
pub struct Owners {
    names: Vec<(u16, String)>,
    /// Names by member number.
    members: Vec<(u16, String)>,
}

impl Owners {
    /// Reads what follows `owner`.
    pub fn read(&mut self, tokens: &mut Tokens) -> Result<(), Mismatch> {
        if tokens.is_next("member") {
            return self.read_member(tokens);
        }
        let subaddress = tokens.decimal("a subaddress", LAST)?;
        if subaddress < FIRST {
            return mismatch("subaddress 0", "a subaddress from 1 to 30");
        }
        let subaddress = subaddress as u16;
        let name = read_name(tokens)?;
        if self.of(subaddress).is_some() {
            let found = format!("a second owner of subaddress {subaddress}");
            return mismatch(found, "one owner for each");
        }
        self.names.push((subaddress, name));
        self.names.sort();
        Ok(())
    }

    /// `member NUMBER NAME`, of a member who is named in long records.
    fn read_member(&mut self, tokens: &mut Tokens) -> Result<(), Mismatch> {
        tokens.name("member")?;
        let number = tokens.decimal("a member number", u16::MAX.into())? as u16;
        let name = read_name(tokens)?;
        if self.member(number).is_some() {
            let found = format!("a second name of member {number}");
            return mismatch(found, "one name for each");
        }
        self.members.push((number, name));
        Ok(())
    }

    /// The name of the member with this number.
    pub fn member(&self, number: u16) -> Option<&str> {
        let named = self.members.iter().find(|(member, _)| *member == number);
        named.map(|(_, name)| name.as_str())
    }

    /// The owner of a subaddress.
    pub fn of(&self, subaddress: u16) -> Option<&str> {
        let named = self.names.iter().find(|(place, _)| *place == subaddress);
        named.map(|(_, name)| name.as_str())
    }

    /// Owned subaddresses in rising order, each with its owner.
    pub fn iter(&self) -> impl Iterator<Item = (u16, &str)> {
        self.names
            .iter()
            .map(|(place, name)| (*place, name.as_str()))
    }

    pub fn is_empty(&self) -> bool {
        self.names.is_empty()
    }
}

/// The rest of the line as a name.
fn read_name(tokens: &mut Tokens) -> Result<String, Mismatch> {
    let name = tokens.collect::<Vec<_>>().join(" ");
    if name.is_empty() {
        return mismatch(shown(None), "the owner's name");
    }
    if let Some(unseen) = first_unseen(&name) {
        let found = format!("{unseen} in a name");
        return mismatch(found, "characters that are seen when it is printed");
    }
    Ok(name)
}
