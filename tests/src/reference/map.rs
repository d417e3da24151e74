//! A port's map between VLANs and fine-grained labels (document 02, 2026-01).

use super::number;
use super::refusal::Refusal;

/// "A map is 6 bytes a pair: VLAN 2 bytes, label 4."
pub const PAIR: usize = 6;

/// "A port's VLAN number and a campus label are two numberings, kept strictly apart."
#[derive(Clone, Copy, Debug, PartialEq, Eq)]
pub struct PortVlan(pub u16);

/// The other numbering.
#[derive(Clone, Copy, Debug, PartialEq, Eq)]
pub struct CampusLabel(pub u32);

/// "a port's map, a lent list of pairs of VLAN and fine-grained label": one that is good.
pub struct Map(Vec<(PortVlan, CampusLabel)>);

impl Map {
    /// 21: "map has a VLAN or label twice, a VLAN outside 1 to FFE or a label over FFFFFF"; at the C
    /// boundary also a length that is no multiple of 6.
    pub fn check(bytes: &[u8]) -> Result<Map, Refusal> {
        if !bytes.len().is_multiple_of(PAIR) {
            return Err(Refusal::Map);
        }
        let (mut vlans, mut labels) = (Numbers::default(), Numbers::default());
        let mut pairs = Vec::new();
        for pair in bytes.chunks_exact(PAIR) {
            let (vlan, label) = (number(&pair[..2]), number(&pair[2..]));
            let in_range = (0x001..=0xFFE).contains(&vlan) && label <= 0xFF_FFFF;
            if !in_range || !vlans.add(vlan) || !labels.add(label) {
                return Err(Refusal::Map);
            }
            pairs.push((PortVlan(vlan as u16), CampusLabel(label as u32)));
        }
        Ok(Map(pairs))
    }

    /// "Without a map (an empty one is none)".
    pub fn is_none(&self) -> bool {
        self.0.is_empty()
    }

    /// The label of a VLAN. 22: "no pair found"
    pub fn label_of(&self, vlan: PortVlan) -> Result<CampusLabel, Refusal> {
        let pair = self.0.iter().find(|(known, _)| *known == vlan);
        pair.map(|(_, label)| *label).ok_or(Refusal::NoPair)
    }

    /// The VLAN of a label. 22: "no pair found"
    pub fn vlan_of(&self, label: CampusLabel) -> Result<PortVlan, Refusal> {
        let pair = self.0.iter().find(|(_, known)| *known == label);
        pair.map(|(vlan, _)| *vlan).ok_or(Refusal::NoPair)
    }
}

/// The numbers met up to now.
#[derive(Default)]
struct Numbers(std::collections::BTreeSet<u64>);

impl Numbers {
    /// Whether the number is new.
    fn add(&mut self, number: u64) -> bool {
        self.0.insert(number)
    }
}

#[cfg(test)]
mod tests {
    use super::*;

    /// The bytes of a map.
    fn bytes(pairs: &[(u16, u32)]) -> Vec<u8> {
        let pair = |(vlan, label): &(u16, u32)| {
            [&vlan.to_be_bytes()[..], &label.to_be_bytes()[..]].concat()
        };
        pairs.iter().flat_map(pair).collect()
    }

    #[test]
    fn a_map_is_judged_by_its_numbers_and_its_length() {
        let good: [&[(u16, u32)]; 5] = [
            &[],
            &[(10, 0xAB_CDEF)],
            &[(1, 0), (0xFFE, 0xFF_FFFF)],
            // The same number in both numberings is no number twice.
            &[(10, 10), (11, 12), (12, 11)],
            &[(0xFFE, 0), (1, 1)],
        ];
        for pairs in good {
            assert!(Map::check(&bytes(pairs)).is_ok(), "{pairs:?}");
        }
        let bad: [&[(u16, u32)]; 7] = [
            &[(0, 5)],
            &[(0xFFF, 5)],
            &[(0x1001, 5)],
            &[(10, 0x100_0000)],
            &[(10, 5), (11, 6), (10, 7)],
            &[(10, 5), (11, 6), (12, 5)],
            &[(10, 5), (10, 5)],
        ];
        for pairs in bad {
            assert_eq!(Map::check(&bytes(pairs)).err(), Some(Refusal::Map));
        }
        let whole = bytes(&[(10, 5), (11, 6)]);
        for length in 0..=whole.len() {
            let good = Map::check(&whole[..length]).is_ok();
            assert_eq!(good, length % PAIR == 0, "{length}");
        }
    }

    #[test]
    fn on_a_good_map_the_two_searches_undo_each_other() {
        let map = Map::check(&bytes(&[(10, 0xAB_CDEF), (11, 10), (12, 0)])).expect("a good map");
        for vlan in 0..=0xFFFF {
            if let Ok(label) = map.label_of(PortVlan(vlan)) {
                assert_eq!(map.vlan_of(label), Ok(PortVlan(vlan)));
            }
        }
        assert_eq!(map.label_of(PortVlan(10)), Ok(CampusLabel(0xAB_CDEF)));
        assert_eq!(map.vlan_of(CampusLabel(10)), Ok(PortVlan(11)));
        assert_eq!(map.label_of(PortVlan(13)), Err(Refusal::NoPair));
        assert_eq!(map.vlan_of(CampusLabel(12)), Err(Refusal::NoPair));
        let none = Map::check(&[]).expect("no map");
        assert!(none.is_none() && !map.is_none());
        assert_eq!(none.label_of(PortVlan(10)), Err(Refusal::NoPair));
        assert_eq!(none.vlan_of(CampusLabel(10)), Err(Refusal::NoPair));
    }
}
