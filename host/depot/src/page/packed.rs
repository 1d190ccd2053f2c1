//! Numbers in few characters, and texts that may stand in a script element.

use serde_json::Value;

/// Numbers of seven bits a byte, the low ones first; all but a number's last byte have the eighth bit.
#[derive(Default)]
pub struct Packed(Vec<u8>);

impl Packed {
    pub fn number(&mut self, mut number: u64) {
        while number >= 0x80 {
            self.0.push(number as u8 | 0x80);
            number >>= 7;
        }
        self.0.push(number as u8);
    }

    /// Twice the number, or one less than twice its size where it is negative.
    pub fn signed(&mut self, number: i64) {
        self.number(((number << 1) ^ (number >> 63)) as u64);
    }

    /// In base 64.
    pub fn text(&self) -> String {
        base64::encode(&self.0)
    }
}

/// Equal neighbours as runs: how many, then what.
pub fn runs(values: &[u32]) -> String {
    let mut packed = Packed::default();
    let mut rest = values;
    while let Some(&value) = rest.first() {
        let run = rest.iter().take_while(|&&other| other == value).count();
        packed.number(run as u64);
        packed.number(u64::from(value));
        rest = &rest[run..];
    }
    packed.text()
}

/// Two numbers below 16 in a byte, the first in its low half.
pub fn halves(values: &[u8]) -> String {
    let bytes: Vec<u8> = values.chunks(2).map(|pair| pair[0] | pair.get(1).map_or(0, |second| second << 4)).collect();
    base64::encode(bytes)
}

/// JSON that ends no script element, whatever its texts are: these five stand in texts alone.
pub fn json_text(value: &Value) -> String {
    let escaped = |text: String, letter: char| text.replace(letter, &format!("\\u{:04x}", letter as u32));
    ['<', '>', '&', '\u{2028}', '\u{2029}'].into_iter().fold(value.to_string(), escaped)
}

#[cfg(test)]
mod tests {
    use super::*;
    use serde_json::json;

    #[test]
    fn numbers_and_runs() {
        let mut packed = Packed::default();
        [0, -1, 1, -64, 64].into_iter().for_each(|number| packed.signed(number));
        assert_eq!(packed.0, [0, 1, 2, 127, 0x80, 1]);
        packed = Packed::default();
        packed.signed(i64::from(i32::MIN) * 2);
        assert_eq!(packed.0, [0xFF, 0xFF, 0xFF, 0xFF, 0x1F]);
        assert_eq!(base64::decode(runs(&[5, 5, 5, 300, 5])).unwrap(), [3, 5, 1, 0xAC, 2, 1, 5]);
        assert_eq!(runs(&[]), "");
        assert_eq!(base64::decode(halves(&[1, 15, 2])).unwrap(), [0xF1, 2]);
    }

    #[test]
    fn no_text_ends_a_script() {
        let hostile = json!({"</script>": "<!-- \u{2028}\u{2029} & \"\\"});
        let text = json_text(&hostile);
        assert!(!text.contains(['<', '>', '&', '\u{2028}', '\u{2029}']), "{text}");
        assert_eq!(serde_json::from_str::<Value>(&text).unwrap(), hostile);
    }
}
