//! The extensions that speak of policies, found in a certificate (RFC 5280
//! 4.1).

use crate::der::{Reader, OBJECT_IDENTIFIER, SEQUENCE};

const BOOLEAN: u8 = 0x01;
const OCTET_STRING: u8 = 0x04;
/// The field of a certificate that holds its extensions, [3].
const EXTENSIONS: u8 = 0xA3;

/// The identifiers of certificatePolicies, policyMappings, policyConstraints and
/// inhibitAnyPolicy.
const IDENTIFIERS: [[u8; 3]; 4] =
    [[0x55, 0x1D, 0x20], [0x55, 0x1D, 0x21], [0x55, 0x1D, 0x24], [0x55, 0x1D, 0x36]];

/// The values of the four extensions, each a part of the certificate's octets,
/// empty where the extension is absent. The other fields are passed over.
pub fn policy_extensions(certificate: &[u8]) -> Result<[&[u8]; 4], u8> {
    let mut values = [&[][..]; 4];
    let mut whole = Reader::new(certificate);
    let mut signed = Reader::new(whole.value(SEQUENCE)?);
    let mut fields = Reader::new(signed.value(SEQUENCE)?);
    while !fields.is_empty() && !fields.has_next(EXTENSIONS) {
        fields.any_value()?;
    }
    if fields.is_empty() {
        return Ok(values);
    }
    let mut extensions = Reader::new(fields.value(EXTENSIONS)?);
    let mut extensions = Reader::new(extensions.value(SEQUENCE)?);
    while !extensions.is_empty() {
        let mut extension = Reader::new(extensions.value(SEQUENCE)?);
        let identifier = extension.value(OBJECT_IDENTIFIER)?;
        if extension.has_next(BOOLEAN) {
            extension.any_value()?;
        }
        let value = extension.value(OCTET_STRING)?;
        if let Some(place) = IDENTIFIERS.iter().position(|known| known == identifier) {
            values[place] = value;
        }
    }
    Ok(values)
}

#[cfg(test)]
mod tests {
    use super::*;
    use crate::tlv::Tlv;

    /// A certificate with these extensions, its other fields of any content.
    fn certificate(extensions: Vec<Tlv>) -> Vec<u8> {
        let mut fields = vec![
            Tlv::octets(0xA0, &[2, 1, 2]),
            Tlv::octets(0x02, &[7]),
            Tlv::sequence(vec![]),
            Tlv::sequence(vec![]),
            Tlv::sequence(vec![]),
            Tlv::sequence(vec![]),
            Tlv::sequence(vec![]),
        ];
        if !extensions.is_empty() {
            fields.push(Tlv::octets(EXTENSIONS, &Tlv::sequence(extensions).encode()));
        }
        let signature = [Tlv::sequence(vec![]), Tlv::octets(0x03, &[0, 1])];
        Tlv::sequence([&[Tlv::sequence(fields)][..], &signature].concat()).encode()
    }

    /// An extension, critical or not.
    fn extension(last: u8, critical: bool, value: &[u8]) -> Tlv {
        let mut fields = vec![Tlv::identifier(&[0x55, 0x1D, last])];
        if critical {
            fields.push(Tlv::octets(BOOLEAN, &[0xFF]));
        }
        fields.push(Tlv::octets(OCTET_STRING, value));
        Tlv::sequence(fields)
    }

    #[test]
    fn the_four_values_in_their_order() {
        let all = certificate(vec![
            extension(0x36, true, &[2, 1, 0]),
            extension(0x13, true, &[0x30, 0]),
            extension(0x20, false, &[1]),
            extension(0x24, true, &[0x30, 0]),
            extension(0x21, false, &[5, 0]),
        ]);
        let values = policy_extensions(&all).unwrap();
        assert_eq!(values, [&[1][..], &[5, 0], &[0x30, 0], &[2, 1, 0]]);
        for octets in [certificate(vec![]), certificate(vec![extension(0x13, true, &[1])])] {
            assert_eq!(policy_extensions(&octets), Ok([&[][..]; 4]));
        }
        assert_eq!(policy_extensions(&all[1..]), Err(13));
    }
}
