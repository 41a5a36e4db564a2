//! Classes of cases: a comparison counts how often each occurred, and one that
//! never did is a gap in it.

/// Lists the classes with what each is called, and makes the `Coverage` that
/// counts them.
macro_rules! classes {
    ($($class:ident $name:literal,)*) => {
        #[derive(Clone, Copy, Debug, PartialEq, Eq)]
        enum Class { $($class,)* }

        const NAMES: &[&str] = &[$($name,)*];

        #[derive(Clone, Debug, PartialEq, Eq)]
        pub struct Coverage {
            counts: Vec<u64>,
        }

        impl Default for Coverage {
            fn default() -> Coverage {
                Coverage {
                    counts: vec![0; NAMES.len()],
                }
            }
        }

        impl Coverage {
            /// The names of the classes that never occurred.
            pub fn missing(&self) -> Vec<&'static str> {
                let pairs = NAMES.iter().zip(&self.counts);
                let missing = pairs.filter(|(_, count)| **count == 0);
                missing.map(|(name, _)| *name).collect()
            }

            fn note(&mut self, class: Class, holds: bool) {
                self.counts[class as usize] += u64::from(holds);
            }

            fn count(&self, class: Class) -> u64 {
                self.counts[class as usize]
            }
        }

        impl std::fmt::Display for Coverage {
            fn fmt(&self, f: &mut std::fmt::Formatter) -> std::fmt::Result {
                for (name, count) in NAMES.iter().zip(&self.counts) {
                    writeln!(f, "{count:>9}  {name}")?;
                }
                Ok(())
            }
        }
    };
}

pub(crate) use classes;
