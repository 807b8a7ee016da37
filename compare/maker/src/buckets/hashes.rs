//! The hashes that belong to a bucket, in order.

/// One bucket of a table that has so many, a power of two up to 65,536.
#[derive(Clone, Copy, Debug, PartialEq, Eq)]
pub struct Hashes {
    pub bucket: u32,
    pub buckets: u32,
}

impl Hashes {
    /// How many hashes belong to the bucket.
    pub fn count(self) -> u32 {
        ((1 << 32) / self.buckets as u64) as u32
    }

    /// The hash of a number: they rise with it.
    ///
    /// The bucket is told by the low bits of the high half xor those of the low half. So
    /// the high half is free, and so are the upper bits of the low half.
    pub fn at(self, number: u32) -> u32 {
        let told = self.buckets.ilog2();
        let free = 16 - told;
        let (high, middle) = (number >> free, number & ((1 << free) - 1));
        high << 16 | middle << told | (high ^ self.bucket) & (self.buckets - 1)
    }
}

#[cfg(test)]
mod tests {
    use super::*;
    use crate::table::bucket_of;

    #[test]
    fn hashes_rise_and_belong_to_the_bucket() {
        for buckets in [512, 1024] {
            for bucket in [0, 1, 7, buckets - 1] {
                let hashes = Hashes { bucket, buckets };
                let numbers = (0..70).chain((70..hashes.count()).step_by(997));
                let made: Vec<u32> = numbers.map(|number| hashes.at(number)).collect();
                assert!(made.is_sorted_by(|a, b| a < b));
                let own = |hash: &u32| bucket_of(*hash, buckets as usize) == bucket as usize;
                assert!(made.iter().all(own));
            }
            let first = Hashes { bucket: 0, buckets };
            assert_eq!(first.at(0), 0);
            assert_eq!(first.at(first.count() - 1), u32::MAX);
        }
    }
}
