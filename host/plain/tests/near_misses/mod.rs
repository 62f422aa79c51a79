//! The replies that a drive can give to GET CONFIGURATION, and bytes that are nearly one of them.

use super::replies::{uncut, with_header, FEATURES, WHOLE};

/// The features that a reply lists.
pub type Features = Vec<u16>;

/// Every uncut reply with its features: those from each one on, each one alone, and none.
pub fn replies() -> Vec<(Vec<u8>, Features)> {
    let numbers = FEATURES.map(|(number, _)| number);
    let from_on = (0..=numbers.len()).map(|index| numbers[index..].to_vec());
    let alone = numbers[..numbers.len() - 1].iter().map(|&number| vec![number]);
    let reply = |features: Features| {
        let kind = if features.len() == 1 { 2 } else { 0 };
        let start = features.first().copied().unwrap_or(u16::MAX);
        (uncut(kind, start).expect("a type that is served"), features)
    };
    from_on.chain(alone).map(reply).collect()
}

/// Hands out each reply, and bytes made from the replies; many of them several times.
pub fn visit_all(visit: &mut dyn FnMut(&[u8])) {
    for (reply, _) in replies() {
        visit(&reply);
        change_bytes(&reply, visit);
        cut_and_extend(&reply, visit);
    }
    list_features(visit);
    lengthen_descriptors(visit);
    scramble(visit);
}

/// Every other value of each byte.
fn change_bytes(reply: &[u8], visit: &mut dyn FnMut(&[u8])) {
    let mut changed = reply.to_vec();
    for at in 0..reply.len() {
        for difference in 1..=u8::MAX {
            changed[at] = reply[at] ^ difference;
            visit(&changed);
        }
        changed[at] = reply[at];
    }
}

/// Every part that begins or ends where the reply does, with its own header and with one that fits;
/// bytes and descriptors more.
fn cut_and_extend(reply: &[u8], visit: &mut dyn FnMut(&[u8])) {
    for at in 0..reply.len() {
        visit(&reply[..at]);
        visit(&reply[at..]);
        visit(&with_header(reply[8..].iter().copied().take(at).collect()));
        visit(&with_header(reply[8..].iter().copied().skip(at).collect()));
    }
    for byte in 0..=u8::MAX {
        visit(&[reply, &[byte]].concat());
        visit(&[reply, &[byte; 4]].concat());
    }
    for (_, place) in FEATURES {
        visit(&[reply, &WHOLE[place.clone()]].concat());
        visit(&with_header([&reply[8..], &WHOLE[place]].concat()));
    }
}

/// Every choice of features in rising order, and with any two of them swapped or the one in the other's
/// place; each with the header that fits and with that of the whole reply.
fn list_features(visit: &mut dyn FnMut(&[u8])) {
    let mut visit_list = |indices: &[usize]| {
        let descriptors = indices.iter().map(|&index| &WHOLE[FEATURES[index].1.clone()]);
        let descriptors = descriptors.collect::<Vec<_>>().concat();
        visit(&[&WHOLE[..8], &descriptors].concat());
        visit(&with_header(descriptors));
    };
    for choice in 0..1_u32 << FEATURES.len() {
        let list: Vec<usize> =
            (0..FEATURES.len()).filter(|index| choice >> index & 1 == 1).collect();
        visit_list(&list);
        for one in 0..list.len() {
            for other in 0..one {
                let mut changed = list.clone();
                changed.swap(one, other);
                visit_list(&changed);
                changed.clone_from(&list);
                changed[one] = list[other];
                visit_list(&changed);
            }
        }
    }
}

/// Descriptors with more or less data than the drive's, and the length that goes with it.
fn lengthen_descriptors(visit: &mut dyn FnMut(&[u8])) {
    for (_, place) in FEATURES {
        let descriptor = &WHOLE[place.clone()];
        for length in 0..=64 {
            let mut other = descriptor.to_vec();
            other.resize(4 + length, 0);
            other[3] = length as u8;
            visit(&with_header(other.clone()));
            visit(&with_header([&WHOLE[8..place.start], &other, &WHOLE[place.end..]].concat()));
        }
    }
}

/// Bytes at random, alone, after a header, and in place of some of the whole reply's.
fn scramble(visit: &mut dyn FnMut(&[u8])) {
    let mut drawn = 1_u64;
    let mut draw = |bound: usize| {
        drawn =
            drawn.wrapping_mul(6_364_136_223_846_793_005).wrapping_add(1_442_695_040_888_963_407);
        (drawn >> 33) as usize % bound
    };
    for _ in 0..20_000 {
        let length = draw(110);
        let bytes: Vec<u8> = (0..length).map(|_| draw(256) as u8).collect();
        visit(&bytes);
        visit(&with_header(bytes));
        let mut changed = WHOLE;
        for _ in 0..2 + draw(3) {
            changed[draw(WHOLE.len())] = draw(256) as u8;
        }
        visit(&changed);
    }
}
