//! Random traces with owners, in which words are sent and written over, the
//! terminal is busy, faulty words stay behind, and unused cells lie together.

use plain_terminal::compare::episode::Episode;
use plain_terminal::engine;
use plain_terminal::front::source::Source;
use plain_terminal::random::Random;
use plain_terminal::terminal::cells::RAM_WORDS;
use plain_terminal::terminal::trace::image_bytes;
use plain_terminal::terminal::Settings;
use plain_terminal::text::read_names;

pub struct Trace {
    pub settings: Settings,
    pub image: Vec<u16>,
    pub records: Vec<[u8; 80]>,
    /// By subaddress.
    pub owners: Vec<Option<String>>,
}

impl Trace {
    /// The trace of a seed; none where its stack is unsound. Of three, one has
    /// messages for every cell, and two for a few cells that get into each
    /// other's way.
    pub fn draw(seed: u64) -> Option<Trace> {
        let mut random = Random::new(seed);
        let settings = random.settings();
        let (mut episode, state) = Episode::with_settings(random.clone(), settings);
        let count = 20 + random.below(130);
        let mut trace = Trace {
            settings,
            image: state.ram[..RAM_WORDS].to_vec(),
            records: (0..count).map(|_| episode.record()).collect(),
            owners: owners(&mut random),
        };
        if seed % 3 != 0 {
            trace.crowd(&mut random);
        }
        let label = engine::label_area(&trace.image, &settings);
        label.ok().map(|_| trace)
    }

    /// Leaves a few subaddresses in use, two of them in one block, and lets the
    /// pointers of the others lie together. Words are few, so that one is
    /// often written over with its like.
    fn crowd(&mut self, random: &mut Random) {
        let table = if self.settings.area_b { 0x01C0 } else { 0x0140 };
        let few = [0; 5].map(|_| 1 + random.below(30));
        let block = random.pick(&[0x0000, 0x0400, 0x0800, 0x0C00, 0x0FE0]);
        for subaddress in (1..=30).filter(|it| !few.contains(it)) {
            for kind in 0..3 {
                self.image[table + 32 * kind + subaddress] = block;
            }
            self.image[table + 96 + subaddress] = 0;
        }
        // The first sends from where the second receives.
        self.image[table + 32 + few[0]] = self.image[table + few[1]];
        self.image[table + 96 + few[0]] &= !0x1C00;
        for bytes in &mut self.records {
            let command = u16::from_be_bytes([bytes[0], bytes[1]]);
            let mut subaddress = command >> 5 & 31;
            if (1..=30).contains(&subaddress) {
                subaddress = random.pick(&few) as u16;
            }
            let command = command & !0x03E0 | subaddress << 5;
            bytes[..2].copy_from_slice(&command.to_be_bytes());
            let held = 2 * usize::from(bytes[7].min(32));
            for byte in &mut bytes[16..16 + held] {
                *byte &= 1;
            }
        }
    }

    /// The owners' lines.
    pub fn names(&self) -> String {
        let owned = (1..31).filter_map(|it| self.owners[it].as_ref().map(|name| (it, name)));
        owned
            .map(|(it, name)| format!("owner {it} {name}\n"))
            .collect()
    }

    /// The trace as the program reads it.
    pub fn source(&self) -> Source {
        let mut text = read_names(self.names().as_bytes()).unwrap();
        text.image = image_bytes(&self.image);
        text.records = self.records.concat();
        text.settings = Some(self.settings);
        Source::held("random".into(), text)
    }
}

/// Seven members, each with some subaddresses, and some that nobody owns; now
/// and then nobody owns any.
fn owners(random: &mut Random) -> Vec<Option<String>> {
    let nobody = random.chance(6);
    let mut owner = |place: usize| match random.below(10) {
        member @ 0..=6 if (1..=30).contains(&place) && !nobody => Some(format!("Member {member}")),
        _ => None,
    };
    (0..32).map(&mut owner).collect()
}
