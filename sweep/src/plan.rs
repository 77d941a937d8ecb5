//! Plans of frames: their sizes, when they are refused, and which ones the cases have.
use crate::library::Plan;
use crate::random::Random;

/// The most layers of a frame.
pub const LAYERS: u8 = 3;

/// A name for cases of so many layers.
pub fn of_layers(layers: u8, name: &str) -> String {
    let counts = ["one layer", "two layers", "three layers"];
    format!("{}, {name}", counts[usize::from(layers) - 1])
}

impl Plan {
    /// A plan with these kernels, innermost first. What stands for unused layers changes with them; mostly it is no kernel.
    pub fn of(kernels: &[u8]) -> Plan {
        let unused = kernels.iter().fold(250, |sum: u8, &kernel| {
            sum.wrapping_add(kernel).wrapping_add(1)
        });
        Plan {
            layers: kernels.len() as u8,
            kernels: std::array::from_fn(|l| kernels.get(l).copied().unwrap_or(unused)),
        }
    }

    /// One of the plans of some layers: the digits of a number, of base 3, are the kernels.
    pub fn number(layers: u8, number: usize) -> Plan {
        let digit = |l: u8| (number / 3usize.pow(l.into()) % 3) as u8;
        let kernels: Vec<u8> = (0..layers).map(digit).collect();
        Plan::of(&kernels)
    }

    /// Any plan of some layers.
    pub fn any(random: &mut Random, layers: u8) -> Plan {
        Plan::number(layers, usize::from(random.word()))
    }

    /// How many plans of some layers differ in a kernel that is used.
    pub fn count(layers: u8) -> usize {
        3usize.pow(layers.into())
    }

    /// Condition 14, of a job for all frames.
    pub fn bad_layers(self) -> bool {
        !(1..=LAYERS).contains(&self.layers)
    }

    /// Condition 1: the kernel of one of the layers is none.
    pub fn no_kernel(self) -> bool {
        let layers = usize::from(self.layers.min(LAYERS));
        self.kernels[..layers].iter().any(|&kernel| kernel > 2)
    }

    /// How many symbols a frame has: 16 to the power of the layers; none where the layers are refused.
    pub fn symbols(self) -> usize {
        if self.bad_layers() {
            0
        } else {
            16usize.pow(self.layers.into())
        }
    }

    /// How many bytes its symbols, its word and its mask have.
    pub fn bytes(self) -> usize {
        self.symbols() / 8
    }

    /// The kernels of the layers, innermost first, from some that belong to the numbers 0, 1 and 2.
    pub fn layers_of<T>(self, kernels: &[T]) -> Vec<&T> {
        let layers = usize::from(self.layers);
        let of = |&kernel: &u8| &kernels[usize::from(kernel)];
        self.kernels[..layers].iter().map(of).collect()
    }
}
