//! The list of actions, written out as the paper gives it, against the action by place.

use model::generate::random_image;
use model::geometry::Geometry;
use model::update::{action, total, Action};

struct Writer {
    actions: Vec<Action>,
}

impl Writer {
    fn store(&mut self, register: u32, form: u32, value: u32) {
        self.actions.push(Action::Store {
            register,
            form,
            value,
        });
    }

    fn keys(&mut self) {
        for value in [0, 0xAA99_6655, 0x5566_99AA] {
            self.store(1, 0, value);
        }
    }

    fn opening(&mut self) {
        self.store(0, 1, 0x4000);
        self.store(0, 0, 0);
        self.store(0, 2, 0x4000);
        self.keys();
        self.store(0, 2, 0x8000);
        self.store(0, 1, 0x4000);
        self.keys();
        self.store(9, 1, 0x1F);
    }

    fn erase(&mut self, address: u32, steps: u32) {
        self.store(2, 0, address);
        self.store(0, 0, 4);
        self.store(0, 2, 0x4000);
        self.keys();
        self.store(0, 2, 0x8000);
        for _ in 0..steps {
            self.actions.push(Action::Step);
        }
        self.store(0, 1, 0x4000);
    }

    fn program(&mut self, address: u32, quad: &[u32]) {
        self.store(2, 0, address);
        for word in 0..4 {
            self.store(3 + word, 0, quad[word as usize]);
        }
        self.store(0, 0, 2);
        self.store(0, 2, 0x4000);
        self.keys();
        self.store(0, 2, 0x8000);
        self.actions.push(Action::Step);
        self.store(0, 1, 0x4000);
    }
}

fn written_list(quads: u32, boot: u32, program: u32, image: &[u32]) -> Vec<Action> {
    let bytes = 128 * quads;
    let upper_boot = 0x1FC2_0000;
    let upper_program = 0x1D00_0000 + program * bytes;
    let mut writer = Writer {
        actions: Vec::new(),
    };
    writer.opening();
    writer.erase(upper_boot + (boot - 1) * bytes, 8 * quads);
    for page in 0..boot - 1 {
        writer.erase(upper_boot + page * bytes, 8 * quads);
    }
    for page in 0..program {
        writer.erase(upper_program + page * bytes, 8 * quads);
    }
    let boot_words = (boot * 32 * quads) as usize;
    for (number, quad) in image[boot_words..].chunks(4).enumerate() {
        writer.program(upper_program + 16 * number as u32, quad);
    }
    for (number, quad) in image[..boot_words - 4].chunks(4).enumerate() {
        writer.program(upper_boot + 16 * number as u32, quad);
    }
    let sequence = [0xFEF7_0108, 0xFFFF_FFFF, 0xFFFF_FFFF, 0xFFFF_FFFF];
    writer.program(upper_boot + boot * bytes - 16, &sequence);
    writer.actions
}

#[test]
fn action_by_place() {
    for numbers in [
        [1, 1, 1],
        [1, 5, 1],
        [2, 2, 2],
        [4, 3, 7],
        [8, 1, 64],
        [1, 1, 65],
        [2, 5, 128],
        [128, 2, 1],
    ] {
        let geometry = Geometry::new(numbers).unwrap();
        let image = random_image(&geometry, 10);
        let list = written_list(numbers[0], numbers[1], numbers[2], &image);
        assert_eq!(list.len() as u32, total(&geometry));
        for (place, written) in list.iter().enumerate() {
            assert_eq!(action(&geometry, 0x0107, &image, place as u32), *written);
        }
    }
}
