//! Forms with one field out of its range, and what reading them answers.

use crate::forms::{self, Field, SHORT, join};

/// A field of a form, the greatest number that it takes, and one that it does not take.
pub struct WrongNumber {
    pub field: &'static str,
    pub most: u64,
    pub value: u128,
}

/// Bytes, and the refusal that reading a form from them answers.
pub type Refused = (Vec<u8>, u8);

/// The bytes are refused once the wrong number is whole. A cut of it is judged as any number's is.
///
/// `refusal` is what bytes that begin no form of this kind are refused with.
pub fn with_a_wrong_number(fields: &[Field], wrong: &WrongNumber, refusal: u8) -> Vec<Refused> {
    let form = forms::number(wrong.value);
    let before = join(&fields[..place(fields, wrong.field)]);
    let mut list = Vec::new();
    for end in 1..form.len() {
        let cut = &form[..end];
        let answer = match forms::number_refusal(cut, wrong.most) {
            Some(SHORT) => SHORT,
            Some(_) => refusal,
            None => panic!("the number is cut"),
        };
        list.push(([&before, cut].concat(), answer));
    }
    list.extend(with_bytes_instead(fields, wrong.field, &form, refusal));
    list
}

/// No form begins with what stands before the field and these bytes, whether the rest follows or not.
pub fn with_bytes_instead(
    fields: &[Field],
    field: &str,
    wrong: &[u8],
    refusal: u8,
) -> [Refused; 2] {
    let mut fields = fields.to_vec();
    let place = place(&fields, field);
    fields[place].bytes = wrong.to_vec();
    [&fields[..=place], &fields[..]].map(|part| (join(part), refusal))
}

/// The fields with other numbers in place of some.
pub fn with_numbers(fields: &[Field], numbers: &[(&str, u128)]) -> Vec<Field> {
    let mut fields = fields.to_vec();
    for (field, value) in numbers {
        let place = place(&fields, field);
        fields[place].bytes = forms::number(*value);
    }
    fields
}

pub fn has(fields: &[Field], name: &str) -> bool {
    fields.iter().any(|field| field.name == name)
}

fn place(fields: &[Field], name: &str) -> usize {
    let place = fields.iter().position(|field| field.name == name);
    place.unwrap_or_else(|| panic!("the form has no {name}"))
}
