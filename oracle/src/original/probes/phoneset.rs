//! Inside the original `phoneset`: the names of its phones, from which inputs are made.

pub fn names() -> Vec<&'static str> {
    super::PHONES.iter().map(|phone| phone.name).collect()
}
