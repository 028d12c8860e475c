//! `execute_program`, `op_return` and `op_load_f` to `op_storep_fnc` are richter's (`server/mod.rs`), byte for byte. Everything else here
//! is a STUB: a level whose world has nothing but entities, and whose builtins and State opcode panic with the text `handed over`, so that
//! the runner can leave such a run out.

// Carried-over text is neither laid out anew nor linted.
#[rustfmt::skip]
#[allow(clippy::all)]
pub mod progs;
pub mod world;

use std::{cell::RefCell, rc::Rc};

use self::progs::{
    functions::FunctionKind, globals::GLOBAL_ADDR_RETURN, EntityFieldAddr, ExecutionContext,
    FunctionId, Globals, LoadProgs, Opcode, ProgsError, StringTable,
};
use self::world::World;

/// STUB: richter's has precaches, cvars and time beside these.
#[derive(Debug)]
pub struct LevelState {
    pub string_table: Rc<RefCell<StringTable>>,
    pub cx: ExecutionContext,
    pub globals: Globals,
    pub world: World,
}

impl LevelState {
    /// STUB: richter's reads a map, and spawns its entities. Here there are as many as are asked for, of zeros.
    pub fn new(progs: LoadProgs, entities: usize) -> LevelState {
        LevelState {
            string_table: progs.string_table.clone(),
            cx: progs.cx,
            globals: progs.globals,
            world: World::create(progs.entity_def, progs.string_table, entities),
        }
    }

    pub fn execute_program(&mut self, f: FunctionId) -> Result<(), ProgsError> {
        let mut runaway = 100000;

        let exit_depth = self.cx.call_stack_depth();

        self.cx.enter_function(&mut self.globals, f)?;

        while self.cx.call_stack_depth() != exit_depth {
            runaway -= 1;

            if runaway == 0 {
                panic!("runaway program");
            }

            let statement = self.cx.load_statement();
            let op = statement.opcode;
            let a = statement.arg1;
            let b = statement.arg2;
            let c = statement.arg3;

            debug!(
                "              {:<9} {:>5} {:>5} {:>5}",
                format!("{:?}", op),
                a,
                b,
                c
            );

            use Opcode::*;

            // Y'all like jump tables?
            match op {
                // Control flow ================================================
                If => {
                    let cond = self.globals.get_float(a)? != 0.0;
                    log::debug!("If: cond == {}", cond);

                    if cond {
                        self.cx.jump_relative(b);
                        continue;
                    }
                }

                IfNot => {
                    let cond = self.globals.get_float(a)? != 0.0;
                    log::debug!("IfNot: cond == {}", cond);

                    if !cond {
                        self.cx.jump_relative(b);
                        continue;
                    }
                }

                Goto => {
                    self.cx.jump_relative(a);
                    continue;
                }

                Call0 | Call1 | Call2 | Call3 | Call4 | Call5 | Call6 | Call7 | Call8 => {
                    // TODO: pass to equivalent of PF_VarString
                    let _arg_count = op as usize - Opcode::Call0 as usize;

                    let f_to_call = self.globals.function_id(a)?;
                    if f_to_call.0 == 0 {
                        panic!("NULL function");
                    }

                    let name_id = self.cx.function_def(f_to_call)?.name_id;
                    let name = self.string_table.borrow().get(name_id).unwrap().to_owned();

                    if let FunctionKind::BuiltIn(b) = self.cx.function_def(f_to_call)?.kind {
                        debug!("Calling built-in function {}", name);
                        use progs::functions::BuiltinFunctionId::*;
                        match b {
                            MakeVectors => self.globals.make_vectors()?,
                            SetOrigin => self.builtin_set_origin()?,
                            SetModel => self.builtin_set_model()?,
                            SetSize => self.builtin_set_size()?,
                            Break => unimplemented!(),
                            Random => self.globals.builtin_random()?,
                            Sound => unimplemented!(),
                            Normalize => unimplemented!(),
                            Error => unimplemented!(),
                            ObjError => unimplemented!(),
                            VLen => self.globals.builtin_v_len()?,
                            VecToYaw => self.globals.builtin_vec_to_yaw()?,
                            Spawn => self.builtin_spawn()?,
                            Remove => self.builtin_remove()?,
                            TraceLine => unimplemented!(),
                            CheckClient => unimplemented!(),
                            Find => unimplemented!(),
                            PrecacheSound => self.builtin_precache_sound()?,
                            PrecacheModel => self.builtin_precache_model()?,
                            StuffCmd => unimplemented!(),
                            FindRadius => unimplemented!(),
                            BPrint => unimplemented!(),
                            SPrint => unimplemented!(),
                            DPrint => self.builtin_dprint()?,
                            FToS => unimplemented!(),
                            VToS => unimplemented!(),
                            CoreDump => unimplemented!(),
                            TraceOn => unimplemented!(),
                            TraceOff => unimplemented!(),
                            EPrint => unimplemented!(),
                            WalkMove => unimplemented!(),

                            DropToFloor => self.builtin_drop_to_floor()?,
                            LightStyle => self.builtin_light_style()?,
                            RInt => self.globals.builtin_r_int()?,
                            Floor => self.globals.builtin_floor()?,
                            Ceil => self.globals.builtin_ceil()?,
                            CheckBottom => unimplemented!(),
                            PointContents => unimplemented!(),
                            FAbs => self.globals.builtin_f_abs()?,
                            Aim => unimplemented!(),
                            Cvar => self.builtin_cvar()?,
                            LocalCmd => unimplemented!(),
                            NextEnt => unimplemented!(),
                            Particle => unimplemented!(),
                            ChangeYaw => unimplemented!(),
                            VecToAngles => unimplemented!(),
                            WriteByte => unimplemented!(),
                            WriteChar => unimplemented!(),
                            WriteShort => unimplemented!(),
                            WriteLong => unimplemented!(),
                            WriteCoord => unimplemented!(),
                            WriteAngle => unimplemented!(),
                            WriteString => unimplemented!(),
                            WriteEntity => unimplemented!(),
                            MoveToGoal => unimplemented!(),
                            PrecacheFile => unimplemented!(),
                            MakeStatic => unimplemented!(),
                            ChangeLevel => unimplemented!(),
                            CvarSet => self.builtin_cvar_set()?,
                            CenterPrint => unimplemented!(),
                            AmbientSound => self.builtin_ambient_sound()?,
                            PrecacheModel2 => unimplemented!(),
                            PrecacheSound2 => unimplemented!(),
                            PrecacheFile2 => unimplemented!(),
                            SetSpawnArgs => unimplemented!(),
                        }
                        debug!("Returning from built-in function {}", name);
                    } else {
                        self.cx.enter_function(&mut self.globals, f_to_call)?;
                        continue;
                    }
                }

                Done | Return => self.op_return(a, b, c)?,

                MulF => self.globals.op_mul_f(a, b, c)?,
                MulV => self.globals.op_mul_v(a, b, c)?,
                MulFV => self.globals.op_mul_fv(a, b, c)?,
                MulVF => self.globals.op_mul_vf(a, b, c)?,
                Div => self.globals.op_div(a, b, c)?,
                AddF => self.globals.op_add_f(a, b, c)?,
                AddV => self.globals.op_add_v(a, b, c)?,
                SubF => self.globals.op_sub_f(a, b, c)?,
                SubV => self.globals.op_sub_v(a, b, c)?,
                EqF => self.globals.op_eq_f(a, b, c)?,
                EqV => self.globals.op_eq_v(a, b, c)?,
                EqS => self.globals.op_eq_s(a, b, c)?,
                EqEnt => self.globals.op_eq_ent(a, b, c)?,
                EqFnc => self.globals.op_eq_fnc(a, b, c)?,
                NeF => self.globals.op_ne_f(a, b, c)?,
                NeV => self.globals.op_ne_v(a, b, c)?,
                NeS => self.globals.op_ne_s(a, b, c)?,
                NeEnt => self.globals.op_ne_ent(a, b, c)?,
                NeFnc => self.globals.op_ne_fnc(a, b, c)?,
                Le => self.globals.op_le(a, b, c)?,
                Ge => self.globals.op_ge(a, b, c)?,
                Lt => self.globals.op_lt(a, b, c)?,
                Gt => self.globals.op_gt(a, b, c)?,
                LoadF => self.op_load_f(a, b, c)?,
                LoadV => self.op_load_v(a, b, c)?,
                LoadS => self.op_load_s(a, b, c)?,
                LoadEnt => self.op_load_ent(a, b, c)?,
                LoadFld => panic!("load_fld not implemented"),
                LoadFnc => self.op_load_fnc(a, b, c)?,
                Address => self.op_address(a, b, c)?,
                StoreF => self.globals.op_store_f(a, b, c)?,
                StoreV => self.globals.op_store_v(a, b, c)?,
                StoreS => self.globals.op_store_s(a, b, c)?,
                StoreEnt => self.globals.op_store_ent(a, b, c)?,
                StoreFld => self.globals.op_store_fld(a, b, c)?,
                StoreFnc => self.globals.op_store_fnc(a, b, c)?,
                StorePF => self.op_storep_f(a, b, c)?,
                StorePV => self.op_storep_v(a, b, c)?,
                StorePS => self.op_storep_s(a, b, c)?,
                StorePEnt => self.op_storep_ent(a, b, c)?,
                StorePFld => panic!("storep_fld not implemented"),
                StorePFnc => self.op_storep_fnc(a, b, c)?,
                NotF => self.globals.op_not_f(a, b, c)?,
                NotV => self.globals.op_not_v(a, b, c)?,
                NotS => self.globals.op_not_s(a, b, c)?,
                NotEnt => self.globals.op_not_ent(a, b, c)?,
                NotFnc => self.globals.op_not_fnc(a, b, c)?,
                And => self.globals.op_and(a, b, c)?,
                Or => self.globals.op_or(a, b, c)?,
                BitAnd => self.globals.op_bit_and(a, b, c)?,
                BitOr => self.globals.op_bit_or(a, b, c)?,

                State => self.op_state(a, b, c)?,
            }

            // Increment program counter.
            self.cx.jump_relative(1);
        }

        Ok(())
    }

    pub fn op_return(&mut self, a: i16, b: i16, c: i16) -> Result<(), ProgsError> {
        let val1 = self.globals.get_bytes(a)?;
        let val2 = self.globals.get_bytes(b)?;
        let val3 = self.globals.get_bytes(c)?;

        self.globals.put_bytes(val1, GLOBAL_ADDR_RETURN as i16)?;
        self.globals
            .put_bytes(val2, GLOBAL_ADDR_RETURN as i16 + 1)?;
        self.globals
            .put_bytes(val3, GLOBAL_ADDR_RETURN as i16 + 2)?;

        self.cx.leave_function(&mut self.globals)?;

        Ok(())
    }

    // LOAD_F: load float field from entity
    pub fn op_load_f(&mut self, e_ofs: i16, e_f: i16, dest_ofs: i16) -> Result<(), ProgsError> {
        let ent_id = self.globals.entity_id(e_ofs)?;

        let fld_ofs = self.globals.get_field_addr(e_f)?;

        let f = self.world.entity(ent_id).get_float(fld_ofs.0 as i16)?;
        self.globals.put_float(f, dest_ofs)?;

        Ok(())
    }

    // LOAD_V: load vector field from entity
    pub fn op_load_v(
        &mut self,
        ent_id_addr: i16,
        ent_vector_addr: i16,
        dest_addr: i16,
    ) -> Result<(), ProgsError> {
        let ent_id = self.globals.entity_id(ent_id_addr)?;
        let ent_vector = self.globals.get_field_addr(ent_vector_addr)?;
        let v = self.world.entity(ent_id).get_vector(ent_vector.0 as i16)?;
        self.globals.put_vector(v, dest_addr)?;

        Ok(())
    }

    pub fn op_load_s(
        &mut self,
        ent_id_addr: i16,
        ent_string_id_addr: i16,
        dest_addr: i16,
    ) -> Result<(), ProgsError> {
        let ent_id = self.globals.entity_id(ent_id_addr)?;
        let ent_string_id = self.globals.get_field_addr(ent_string_id_addr)?;
        let s = self
            .world
            .entity(ent_id)
            .string_id(ent_string_id.0 as i16)?;
        self.globals.put_string_id(s, dest_addr)?;

        Ok(())
    }

    pub fn op_load_ent(
        &mut self,
        ent_id_addr: i16,
        ent_entity_id_addr: i16,
        dest_addr: i16,
    ) -> Result<(), ProgsError> {
        let ent_id = self.globals.entity_id(ent_id_addr)?;
        let ent_entity_id = self.globals.get_field_addr(ent_entity_id_addr)?;
        let e = self
            .world
            .entity(ent_id)
            .entity_id(ent_entity_id.0 as i16)?;
        self.globals.put_entity_id(e, dest_addr)?;

        Ok(())
    }

    pub fn op_load_fnc(
        &mut self,
        ent_id_addr: i16,
        ent_function_id_addr: i16,
        dest_addr: i16,
    ) -> Result<(), ProgsError> {
        let ent_id = self.globals.entity_id(ent_id_addr)?;
        let fnc_function_id = self.globals.get_field_addr(ent_function_id_addr)?;
        let f = self
            .world
            .entity(ent_id)
            .function_id(fnc_function_id.0 as i16)?;
        self.globals.put_function_id(f, dest_addr)?;

        Ok(())
    }

    pub fn op_address(
        &mut self,
        ent_id_addr: i16,
        fld_addr_addr: i16,
        dest_addr: i16,
    ) -> Result<(), ProgsError> {
        let ent_id = self.globals.entity_id(ent_id_addr)?;
        let fld_addr = self.globals.get_field_addr(fld_addr_addr)?;
        self.globals.put_entity_field(
            self.world.ent_fld_addr_to_i32(EntityFieldAddr {
                entity_id: ent_id,
                field_addr: fld_addr,
            }),
            dest_addr,
        )?;

        Ok(())
    }

    pub fn op_storep_f(
        &mut self,
        src_float_addr: i16,
        dst_ent_fld_addr: i16,
        unused: i16,
    ) -> Result<(), ProgsError> {
        if unused != 0 {
            return Err(ProgsError::with_msg("storep_f: nonzero arg3"));
        }

        let f = self.globals.get_float(src_float_addr)?;
        let ent_fld_addr = self
            .world
            .ent_fld_addr_from_i32(self.globals.get_entity_field(dst_ent_fld_addr)?);
        self.world
            .entity_mut(ent_fld_addr.entity_id)?
            .put_float(f, ent_fld_addr.field_addr.0 as i16)?;

        Ok(())
    }

    pub fn op_storep_v(
        &mut self,
        src_vector_addr: i16,
        dst_ent_fld_addr: i16,
        unused: i16,
    ) -> Result<(), ProgsError> {
        if unused != 0 {
            return Err(ProgsError::with_msg("storep_v: nonzero arg3"));
        }

        let v = self.globals.get_vector(src_vector_addr)?;
        let ent_fld_addr = self
            .world
            .ent_fld_addr_from_i32(self.globals.get_entity_field(dst_ent_fld_addr)?);
        self.world
            .entity_mut(ent_fld_addr.entity_id)?
            .put_vector(v, ent_fld_addr.field_addr.0 as i16)?;

        Ok(())
    }

    pub fn op_storep_s(
        &mut self,
        src_string_id_addr: i16,
        dst_ent_fld_addr: i16,
        unused: i16,
    ) -> Result<(), ProgsError> {
        if unused != 0 {
            return Err(ProgsError::with_msg("storep_s: nonzero arg3"));
        }

        let s = self.globals.string_id(src_string_id_addr)?;
        let ent_fld_addr = self
            .world
            .ent_fld_addr_from_i32(self.globals.get_entity_field(dst_ent_fld_addr)?);
        self.world
            .entity_mut(ent_fld_addr.entity_id)?
            .put_string_id(s, ent_fld_addr.field_addr.0 as i16)?;

        Ok(())
    }

    pub fn op_storep_ent(
        &mut self,
        src_entity_id_addr: i16,
        dst_ent_fld_addr: i16,
        unused: i16,
    ) -> Result<(), ProgsError> {
        if unused != 0 {
            return Err(ProgsError::with_msg("storep_ent: nonzero arg3"));
        }

        let e = self.globals.entity_id(src_entity_id_addr)?;
        let ent_fld_addr = self
            .world
            .ent_fld_addr_from_i32(self.globals.get_entity_field(dst_ent_fld_addr)?);
        self.world
            .entity_mut(ent_fld_addr.entity_id)?
            .put_entity_id(e, ent_fld_addr.field_addr.0 as i16)?;

        Ok(())
    }

    pub fn op_storep_fnc(
        &mut self,
        src_function_id_addr: i16,
        dst_ent_fld_addr: i16,
        unused: i16,
    ) -> Result<(), ProgsError> {
        if unused != 0 {
            return Err(ProgsError::with_msg("storep_fnc: nonzero arg3"));
        }

        let f = self.globals.function_id(src_function_id_addr)?;
        let ent_fld_addr = self
            .world
            .ent_fld_addr_from_i32(self.globals.get_entity_field(dst_ent_fld_addr)?);
        self.world
            .entity_mut(ent_fld_addr.entity_id)?
            .put_function_id(f, ent_fld_addr.field_addr.0 as i16)?;

        Ok(())
    }
}

/// STUB: what reaches the world in richter, and goes to the host in the machine that is compared.
fn handed_over(name: &str) -> Result<(), ProgsError> {
    panic!("handed over: {}", name)
}

macro_rules! handed_over_builtins {
    ($($name:ident),*) => {
        impl LevelState {
            $(pub fn $name(&mut self) -> Result<(), ProgsError> {
                handed_over(stringify!($name))
            })*
        }
    };
}

impl LevelState {
    /// STUB: it is handed to the host in the machine that is compared.
    pub fn op_state(&mut self, _a: i16, _b: i16, _c: i16) -> Result<(), ProgsError> {
        handed_over("op_state")
    }
}

handed_over_builtins!(
    builtin_set_origin,
    builtin_set_model,
    builtin_set_size,
    builtin_spawn,
    builtin_remove,
    builtin_precache_sound,
    builtin_precache_model,
    builtin_dprint,
    builtin_drop_to_floor,
    builtin_light_style,
    builtin_cvar,
    builtin_cvar_set,
    builtin_ambient_sound
);
