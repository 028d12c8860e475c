//! Copies richter's files and makes the changes below in the copy. Each text must occur as often as it says, so a change can't be lost.

use std::path::{Path, PathBuf};
use std::{env, fs};

struct Change {
    file: &'static str,
    /// 01's name of the difference; it stands in a comment at the place in the copy.
    name: &'static str,
    old: &'static str,
    new: &'static str,
}

const PROGS: &str = "server/progs/mod.rs";
const GLOBALS: &str = "server/progs/globals.rs";
const SERVER: &str = "server/mod.rs";
const ENTITY: &str = "server/world/entity.rs";

const CHANGES: &[Change] = &[
    Change {
        file: PROGS,
        name: "argument copying: to successive cells (1 of 2)",
        old: "        for arg in 0..def.argc {\n",
        new: "        let mut to = def.arg_start;\n        for arg in 0..def.argc {\n",
    },
    Change {
        file: PROGS,
        name: "argument copying: to successive cells (2 of 2)",
        old: "                globals.put_bytes(val, def.arg_start as i16)?;\n",
        new: "                globals.put_bytes(val, to as i16)?;
                if crate::switches::on(crate::switches::Switch::Arguments) {
                    to = to.wrapping_add(1);
                }\n",
    },
    Change {
        file: SERVER,
        name: "the three cells of Return: from the first operand, one at a time",
        old: "        let val1 = self.globals.get_bytes(a)?;\n",
        new: "        if crate::switches::on(crate::switches::Switch::Return) {
            for i in 0..3 {
                let val = self.globals.get_bytes(a.wrapping_add(i))?;
                self.globals.put_bytes(val, GLOBAL_ADDR_RETURN as i16 + i)?;
            }
            return self.cx.leave_function(&mut self.globals);
        }
        let val1 = self.globals.get_bytes(a)?;\n",
    },
    Change {
        file: GLOBALS,
        name: "NotV writes one float",
        old: "        let zero_vec = [0.0; 3];\n",
        new: "        let zero_vec = [0.0; 3];
        if crate::switches::on(crate::switches::Switch::NotV) {
            return self.put_float(if v == zero_vec { 1.0 } else { 0.0 }, not_id);
        }\n",
    },
    Change {
        file: SERVER,
        name: "a host entry's position: nothing is added where the run ends",
        old: "                Done | Return => self.op_return(a, b, c)?,\n",
        new: "                Done | Return => {
                    self.op_return(a, b, c)?;
                    if crate::switches::on(crate::switches::Switch::Position)
                        && self.cx.call_stack_depth() == exit_depth
                    {
                        continue;
                    }
                }\n",
    },
    Change {
        file: SERVER,
        name: "LoadFld, which panics, as the other loads",
        old: "                LoadFld => panic!(\"load_fld not implemented\"),\n",
        new: "                LoadFld if crate::switches::on(crate::switches::Switch::Field) => self.op_load_fld(a, b, c)?,
                LoadFld => panic!(\"load_fld not implemented\"),\n",
    },
    Change {
        file: SERVER,
        name: "StorePFld, which panics, as the other stores",
        old: "                StorePFld => panic!(\"storep_fld not implemented\"),\n",
        new: "                StorePFld if crate::switches::on(crate::switches::Switch::Field) => self.op_storep_fld(a, b, c)?,
                StorePFld => panic!(\"storep_fld not implemented\"),\n",
    },
    Change {
        file: SERVER,
        name: "LoadFld and StorePFld",
        old: "    pub fn op_address(\n",
        new: "    pub fn op_load_fld(&mut self, e_ofs: i16, e_f: i16, dest_ofs: i16) -> Result<(), ProgsError> {
        let ent_id = self.globals.entity_id(e_ofs)?;
        let fld_ofs = self.globals.get_field_addr(e_f)?;
        let f = self.world.entity(ent_id).get_field_addr(fld_ofs.0 as i16)?;
        self.globals.put_field_addr(f, dest_ofs)?;
        Ok(())
    }

    pub fn op_storep_fld(&mut self, src: i16, dst_ent_fld_addr: i16, unused: i16) -> Result<(), ProgsError> {
        if unused != 0 {
            return Err(ProgsError::with_msg(\"storep_fld: nonzero arg3\"));
        }
        let f = self.globals.get_field_addr(src)?;
        let ent_fld_addr = self
            .world
            .ent_fld_addr_from_i32(self.globals.get_entity_field(dst_ent_fld_addr)?);
        self.world
            .entity_mut(ent_fld_addr.entity_id)?
            .put_field_addr(f, ent_fld_addr.field_addr.0 as i16)?;
        Ok(())
    }

    pub fn op_address(\n",
    },
    Change {
        file: ENTITY,
        name: "accessors for LoadFld and StorePFld, as those of entities",
        old: "    /// Loads a `FunctionId` from the given virtual address.\n",
        new: "    pub fn get_field_addr(&self, addr: i16) -> Result<crate::server::progs::FieldAddr, EntityError> {
        self.type_check(addr as usize, Type::QField)?;
        match self.get_addr(addr)?.read_i32::<LittleEndian>()? {
            f if f < 0 => Err(EntityError::with_msg(format!(\"Negative entity ID ({})\", f))),
            f => Ok(crate::server::progs::FieldAddr(f as usize)),
        }
    }

    pub fn put_field_addr(&mut self, val: crate::server::progs::FieldAddr, addr: i16) -> Result<(), EntityError> {
        self.type_check(addr as usize, Type::QField)?;
        self.get_addr_mut(addr)?
            .write_i32::<LittleEndian>(val.0 as i32)?;
        Ok(())
    }

    /// Loads a `FunctionId` from the given virtual address.\n",
    },
    nan(
        "        self.put_float(f1 * f2, prod_id)?;\n",
        "        self.put_float(crate::switches::canonical(f1 * f2), prod_id)?;\n",
    ),
    nan(
        "        self.put_float(dot, dot_id)?;\n",
        "        self.put_float(crate::switches::canonical(dot), dot_id)?;\n",
    ),
    nan(
        "        self.put_vector(prod, prod_id)?;\n",
        "        self.put_vector(prod.map(crate::switches::canonical), prod_id)?;\n",
    ),
    nan(
        "        self.put_float(f1 / f2, quot_id)?;\n",
        "        self.put_float(crate::switches::canonical(f1 / f2), quot_id)?;\n",
    ),
    nan(
        "        self.put_float(f1 + f2, sum_ofs)?;\n",
        "        self.put_float(crate::switches::canonical(f1 + f2), sum_ofs)?;\n",
    ),
    nan(
        "        self.put_vector(sum, sum_id)?;\n",
        "        self.put_vector(sum.map(crate::switches::canonical), sum_id)?;\n",
    ),
    nan(
        "        self.put_float(f1 - f2, diff_id)?;\n",
        "        self.put_float(crate::switches::canonical(f1 - f2), diff_id)?;\n",
    ),
    nan(
        "        self.put_vector(diff, diff_id)?;\n",
        "        self.put_vector(diff.map(crate::switches::canonical), diff_id)?;\n",
    ),
    nan(
        "        self.put_float(f.round(), GLOBAL_ADDR_RETURN as i16)?;\n",
        "        self.put_float(crate::switches::canonical(f.round()), GLOBAL_ADDR_RETURN as i16)?;\n",
    ),
    nan(
        "        self.put_float(f.floor(), GLOBAL_ADDR_RETURN as i16)?;\n",
        "        self.put_float(crate::switches::canonical(f.floor()), GLOBAL_ADDR_RETURN as i16)?;\n",
    ),
    nan(
        "        self.put_float(f.ceil(), GLOBAL_ADDR_RETURN as i16)?;\n",
        "        self.put_float(crate::switches::canonical(f.ceil()), GLOBAL_ADDR_RETURN as i16)?;\n",
    ),
    nan(
        "        self.put_float(f.abs(), GLOBAL_ADDR_RETURN as i16)?;\n",
        "        self.put_float(crate::switches::canonical(f.abs()), GLOBAL_ADDR_RETURN as i16)?;\n",
    ),
];

const fn nan(old: &'static str, new: &'static str) -> Change {
    Change {
        file: GLOBALS,
        name: "NaN made by arithmetic or rounding is 7fc00000",
        old,
        new,
    }
}

/// MulFV and MulVF end in the same line.
fn occurrences(change: &Change) -> usize {
    1 + change.old.contains("self.put_vector(prod, ") as usize
}

fn change(file: &str, mut text: String) -> String {
    for c in CHANGES.iter().filter(|c| c.file == file) {
        assert_eq!(text.matches(c.old).count(), occurrences(c), "{}", c.old);
        let new = format!("        // CHANGED: {}\n{}", c.name, c.new);
        text = text.replace(c.old, &new);
    }
    text
}

fn main() {
    let source = PathBuf::from("../richter/src");
    let out = PathBuf::from(env::var_os("OUT_DIR").expect("cargo sets it"));
    // Of an earlier build there may be files that are others now.
    let _ = fs::remove_dir_all(out.join("server"));
    for folder in ["server/progs", "server/world"] {
        fs::create_dir_all(out.join(folder)).unwrap();
    }
    for file in [
        SERVER,
        PROGS,
        GLOBALS,
        ENTITY,
        "server/world/mod.rs",
        "server/progs/functions.rs",
        "server/progs/ops.rs",
        "server/progs/string_table.rs",
    ] {
        let from: &Path = &source.join(file);
        println!("cargo:rerun-if-changed={}", from.display());
        let text = change(file, fs::read_to_string(from).unwrap());
        fs::write(out.join(file), text).unwrap();
    }
    fs::write(out.join("copy.rs"), "pub mod server;\n").unwrap();
    println!("cargo:rerun-if-changed=build.rs");
}
