//! The inputs of one call as named lists of words, and their text: a line with the kind, then one for each list, its
//! name and its words in hexadecimal.

pub struct Case {
    pub kind: String,
    lists: Vec<(String, Vec<u64>)>,
}

impl Case {
    pub fn new(kind: &str) -> Case {
        Case { kind: kind.to_string(), lists: vec![] }
    }

    pub fn words(mut self, name: &str, words: &[u64]) -> Case {
        self.lists.push((name.to_string(), words.to_vec()));
        self
    }

    pub fn numbers(self, name: &str, numbers: &[usize]) -> Case {
        self.words(name, &numbers.iter().map(|&k| k as u64).collect::<Vec<_>>())
    }

    pub fn floats(self, name: &str, floats: &[f32]) -> Case {
        self.words(name, &floats.iter().map(|x| x.to_bits() as u64).collect::<Vec<_>>())
    }

    pub fn bytes(self, name: &str, bytes: &[u8]) -> Case {
        self.words(name, &bytes.iter().map(|&k| k as u64).collect::<Vec<_>>())
    }

    pub fn doubles(self, name: &str, doubles: &[f64]) -> Case {
        self.words(name, &doubles.iter().map(|x| x.to_bits()).collect::<Vec<_>>())
    }

    pub fn get(&self, name: &str) -> &[u64] {
        let list = self.lists.iter().find(|list| list.0 == name);
        &list.unwrap_or_else(|| panic!("a case of {} without {name}", self.kind)).1
    }

    pub fn get_numbers(&self, name: &str) -> Vec<usize> {
        self.get(name).iter().map(|&k| k as usize).collect()
    }

    pub fn get_floats(&self, name: &str) -> Vec<f32> {
        self.get(name).iter().map(|&k| f32::from_bits(k as u32)).collect()
    }

    pub fn get_bytes(&self, name: &str) -> Vec<u8> {
        self.get(name).iter().map(|&k| k as u8).collect()
    }

    pub fn get_doubles(&self, name: &str) -> Vec<f64> {
        self.get(name).iter().map(|&k| f64::from_bits(k)).collect()
    }

    pub fn text(&self) -> String {
        let words = |list: &[u64]| list.iter().map(|k| format!(" {k:x}")).collect::<String>();
        let lines: String = self.lists.iter().map(|(name, list)| format!("{name}{}\n", words(list))).collect();
        format!("{}\n{lines}", self.kind)
    }

    pub fn read(text: &str) -> Case {
        let mut lines = text.lines();
        let mut case = Case::new(lines.next().expect("the line of the kind"));
        for line in lines {
            let mut words = line.split(' ');
            let name = words.next().expect("the name of a list");
            let list = words.map(|word| u64::from_str_radix(word, 16).expect("a word in hexadecimal")).collect();
            case.lists.push((name.to_string(), list));
        }
        case
    }
}
