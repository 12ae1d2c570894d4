//! Records of units for the grammar: contexts, units, measures, conversions, tolerances, in any order and with ids that meet.

use crate::grammar::Made;

const PREFIXES: [&[u8]; 12] = [
    b"$", b"*", b".MILLI.", b".CENTI.", b".KILO.", b".EXA.", b".ATTO.", b".micro.", b".Deca.",
    b".NONE.", b"1", b"",
];
const NAMES: [&[u8]; 8] = [
    b".METRE.",
    b".METRE.",
    b".METRE.",
    b".RADIAN.",
    b".metre.",
    b".STERADIAN.",
    b"$",
    b"1",
];
const NUMBERS: [&[u8]; 16] = [
    b"25.4",
    b"1.",
    b"LENGTH_MEASURE(2.54)",
    b"0.017453292519943",
    b"0.0174532925199433",
    b"1E23",
    b"-0.",
    b"inf",
    b"$",
    b"'x'",
    b"1E22",
    b"PLANE_ANGLE_MEASURE(0.5)",
    b"0.017453292519943295",
    b"1E27",
    b"1E28",
    b"9999999999999999999.E-27",
];
const ROLES: [&[u8]; 6] = [
    b"LENGTH_UNIT()",
    b"LENGTH_UNIT()",
    b"PLANE_ANGLE_UNIT()",
    b"SOLID_ANGLE_UNIT()",
    b"NAMED_UNIT(*)",
    b"",
];

impl Made<'_> {
    pub fn units(&mut self) {
        for _ in 0..4 + self.draw.below(6) {
            self.put(b"#");
            let id = self.draw.below(7);
            self.number(id);
            self.put(b"=");
            // Most ids have a thing of their own, so that references meet what they ask for.
            let thing = if self.draw.one_in(8) {
                self.draw.below(8)
            } else {
                id
            };
            match thing {
                0 | 6 => self.context(),
                1 | 2 => self.si(),
                3 => self.conversion(),
                4 => self.measure(),
                5 => self.tolerance(),
                _ => self.put(b"A()"),
            }
            self.put(b";");
        }
    }

    /// A reference to one of these ids, or to any.
    fn reference(&mut self, ids: &[usize]) {
        self.put(b"#");
        let id = if self.draw.one_in(8) {
            self.draw.below(8)
        } else {
            self.draw.pick(ids)
        };
        self.number(id);
    }

    fn references(&mut self, ids: &[usize]) {
        if self.draw.one_in(24) {
            let other = self.draw.pick(&[
                &b"$"[..],
                b"#1",
                b"(1)",
                b"(#1,)",
                b"",
                b"('",
                b"(#4294967296)",
            ]);
            self.put(other);
            return;
        }
        self.put(b"(");
        for k in 0..self.draw.below(4) {
            if k > 0 {
                self.put(b",");
            }
            self.reference(ids);
        }
        self.put(b")");
    }

    fn context(&mut self) {
        if self.draw.one_in(8) {
            let simple = self.draw.pick(&[
                &b"GEOMETRIC_REPRESENTATION_CONTEXT(3)"[..],
                b"GEOMETRIC_REPRESENTATION_CONTEXT($)",
            ]);
            self.put(simple);
            return;
        }
        self.put(b"(");
        let dimension = self.draw.pick(&[
            &b"GEOMETRIC_REPRESENTATION_CONTEXT(3)"[..],
            b"GEOMETRIC_REPRESENTATION_CONTEXT(3)",
            b"GEOMETRIC_REPRESENTATION_CONTEXT(x)",
            b"",
        ]);
        self.put(dimension);
        if self.draw.one_in(2) {
            self.put(b"GLOBAL_UNCERTAINTY_ASSIGNED_CONTEXT(");
            self.references(&[5]);
            self.put(b")");
        }
        self.put(b" GLOBAL_UNIT_ASSIGNED_CONTEXT(");
        self.references(&[1, 2, 3]);
        self.put(b")REPRESENTATION_CONTEXT('',''))");
    }

    fn si(&mut self) {
        self.put(b"(");
        let role = self.draw.pick(&ROLES);
        self.put(role);
        self.put(b"SI_UNIT(");
        let prefix = self.draw.pick(&PREFIXES);
        self.put(prefix);
        self.put(b",");
        let name = self.draw.pick(&NAMES);
        self.put(name);
        self.put(b"))");
    }

    fn conversion(&mut self) {
        self.put(b"(CONVERSION_BASED_UNIT('U',");
        self.reference(&[4]);
        self.put(b")");
        let role = self.draw.pick(&ROLES);
        self.put(role);
        self.put(b")");
    }

    fn measure(&mut self) {
        let word = self.draw.pick(&[
            &b"LENGTH_MEASURE_WITH_UNIT("[..],
            b"PLANE_ANGLE_MEASURE_WITH_UNIT(",
            b"(LENGTH_MEASURE_WITH_UNIT(",
        ]);
        self.put(word);
        let number = self.draw.pick(&NUMBERS);
        self.put(number);
        self.put(b",");
        self.reference(&[1, 2, 3]);
        let close: &[u8] = if word[0] == b'(' { b"))" } else { b")" };
        self.put(close);
    }

    fn tolerance(&mut self) {
        self.put(b"UNCERTAINTY_MEASURE_WITH_UNIT(");
        let number = self.draw.pick(&NUMBERS);
        self.put(number);
        self.put(b",");
        self.reference(&[1, 2, 3]);
        self.put(b",'d','')");
    }
}
