//! Characters that a terminal or a browser obeys instead of showing them, and
//! those that show as nothing at all.

/// The text with every character that is not seen spelled out, such as
/// `\u{202e}`, so that it is shown and never obeyed.
pub fn visible(text: &str) -> String {
    let mut shown = String::with_capacity(text.len());
    for (character, unseen) in looked_at(text) {
        if unseen {
            shown += &spelled(character);
        } else {
            shown.push(character);
        }
    }
    shown
}

/// The first character of a text that is not seen, spelled out.
pub fn first_unseen(text: &str) -> Option<String> {
    let mut unseen = looked_at(text).filter(|(_, unseen)| *unseen);
    unseen.next().map(|(character, _)| spelled(character))
}

fn spelled(character: char) -> String {
    if character.is_control() {
        // Some have short names, such as `\n`.
        character.escape_debug().to_string()
    } else {
        character.escape_unicode().to_string()
    }
}

/// The characters of a text, each with whether it is unseen there. One that
/// chooses how the sign before it looks is seen in that sign.
fn looked_at(text: &str) -> impl Iterator<Item = (char, bool)> + '_ {
    let mut behind_sign = false;
    text.chars().map(move |character| {
        let chooses = behind_sign && matches!(character, '\u{fe0e}' | '\u{fe0f}');
        let unseen = is_unseen(character) && !chooses;
        let letter = character.is_ascii() || character.is_alphanumeric();
        behind_sign = !letter && !character.is_whitespace() && !is_unseen(character);
        (character, unseen)
    })
}

/// Control characters; what Unicode calls ignorable by default, which has the
/// marks that turn the direction of writing; what ends a line or notes between
/// lines; and signs that are blank.
fn is_unseen(character: char) -> bool {
    character.is_control()
        || matches!(character,
            '\u{ad}' | '\u{34f}' | '\u{61c}' | '\u{115f}'..='\u{1160}' | '\u{17b4}'..='\u{17b5}'
            | '\u{180b}'..='\u{180f}' | '\u{200b}'..='\u{200f}' | '\u{202a}'..='\u{202e}'
            | '\u{2060}'..='\u{206f}' | '\u{3164}' | '\u{fe00}'..='\u{fe0f}' | '\u{feff}'
            | '\u{ffa0}' | '\u{fff0}'..='\u{fff8}' | '\u{1bca0}'..='\u{1bca3}'
            | '\u{1d173}'..='\u{1d17a}' | '\u{e0000}'..='\u{e0fff}')
        || matches!(character, '\u{2028}'..='\u{2029}' | '\u{fff9}'..='\u{fffb}' | '\u{13430}'..='\u{1343f}')
        || matches!(character, '\u{2800}' | '\u{16fe4}' | '\u{1d159}')
}
