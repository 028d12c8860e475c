//! richter's text of `world/entity.rs`, where it isn't marked STUB: the errors, the load's check, and the accessors of an entity's
//! cells, `type_check` to `put_function_id`. What a world needs beside them is left out: names, bounds, physics.

use std::{cell::RefCell, convert::TryInto, error::Error, fmt, rc::Rc};

use crate::server::progs::{EntityId, FieldDef, FunctionId, StringId, StringTable, Type};

use byteorder::{LittleEndian, ReadBytesExt, WriteBytesExt};

pub const STATIC_ADDRESS_COUNT: usize = 105;

#[derive(Debug)]
pub enum EntityError {
    Io(::std::io::Error),
    Address(isize),
    Other(String),
}

impl EntityError {
    pub fn with_msg<S>(msg: S) -> Self
    where
        S: AsRef<str>,
    {
        EntityError::Other(msg.as_ref().to_owned())
    }
}

impl fmt::Display for EntityError {
    fn fmt(&self, f: &mut fmt::Formatter) -> fmt::Result {
        match *self {
            EntityError::Io(ref err) => {
                write!(f, "I/O error: ")?;
                err.fmt(f)
            }
            EntityError::Address(val) => write!(f, "Invalid address ({})", val),
            EntityError::Other(ref msg) => write!(f, "{}", msg),
        }
    }
}

impl Error for EntityError {}

impl From<::std::io::Error> for EntityError {
    fn from(error: ::std::io::Error) -> Self {
        EntityError::Io(error)
    }
}

/// A trait which covers addresses of typed values.
pub trait FieldAddr {
    /// The type of value referenced by this address.
    type Value;

    /// Loads the value at this address.
    fn load(&self, ent: &Entity) -> Result<Self::Value, EntityError>;

    /// Stores a value at this address.
    fn store(&self, ent: &mut Entity, value: Self::Value) -> Result<(), EntityError>;
}

/// STUB: richter's has a cache of names beside these.
#[derive(Debug)]
pub struct EntityTypeDef {
    string_table: Rc<RefCell<StringTable>>,
    addr_count: usize,
    field_defs: Box<[FieldDef]>,
}

impl EntityTypeDef {
    pub fn new(
        string_table: Rc<RefCell<StringTable>>,
        addr_count: usize,
        field_defs: Box<[FieldDef]>,
    ) -> Result<EntityTypeDef, EntityError> {
        if addr_count < STATIC_ADDRESS_COUNT {
            return Err(EntityError::with_msg(format!(
                "addr_count ({}) < STATIC_ADDRESS_COUNT ({})",
                addr_count, STATIC_ADDRESS_COUNT
            )));
        }

        // STUB: without the cache of names.
        Ok(EntityTypeDef {
            string_table,
            addr_count,
            field_defs,
        })
    }

    pub fn addr_count(&self) -> usize {
        self.addr_count
    }

    pub fn field_defs(&self) -> &[FieldDef] {
        self.field_defs.as_ref()
    }
}

/// STUB: richter's has the leaves that it touches and a baseline beside these.
#[derive(Debug)]
pub struct Entity {
    string_table: Rc<RefCell<StringTable>>,
    type_def: Rc<EntityTypeDef>,
    addrs: Box<[[u8; 4]]>,
}

impl Entity {
    pub fn new(string_table: Rc<RefCell<StringTable>>, type_def: Rc<EntityTypeDef>) -> Entity {
        let mut addrs = Vec::with_capacity(type_def.addr_count);
        for _ in 0..type_def.addr_count {
            addrs.push([0; 4]);
        }

        // STUB: without leaves and baseline.
        Entity {
            string_table,
            type_def,
            addrs: addrs.into_boxed_slice(),
        }
    }

    pub fn type_check(&self, addr: usize, type_: Type) -> Result<(), EntityError> {
        match self
            .type_def
            .field_defs
            .iter()
            .find(|def| def.type_ != Type::QVoid && def.offset as usize == addr)
        {
            Some(d) => {
                if type_ == d.type_ {
                    return Ok(());
                } else if type_ == Type::QFloat && d.type_ == Type::QVector {
                    return Ok(());
                } else if type_ == Type::QVector && d.type_ == Type::QFloat {
                    return Ok(());
                } else {
                    return Err(EntityError::with_msg(format!(
                        "type check failed: addr={} expected={:?} actual={:?}",
                        addr, type_, d.type_
                    )));
                }
            }
            None => return Ok(()),
        }
    }

    /// Returns a reference to the memory at the given address.
    pub fn get_addr(&self, addr: i16) -> Result<&[u8], EntityError> {
        if addr < 0 {
            return Err(EntityError::Address(addr as isize));
        }

        let addr = addr as usize;

        if addr > self.addrs.len() {
            return Err(EntityError::Address(addr as isize));
        }

        Ok(&self.addrs[addr])
    }

    /// Returns a mutable reference to the memory at the given address.
    pub fn get_addr_mut(&mut self, addr: i16) -> Result<&mut [u8], EntityError> {
        if addr < 0 {
            return Err(EntityError::Address(addr as isize));
        }

        let addr = addr as usize;

        if addr > self.addrs.len() {
            return Err(EntityError::Address(addr as isize));
        }

        Ok(&mut self.addrs[addr])
    }

    /// Returns a copy of the memory at the given address.
    pub fn get_bytes(&self, addr: i16) -> Result<[u8; 4], EntityError> {
        if addr < 0 {
            return Err(EntityError::Address(addr as isize));
        }

        let addr = addr as usize;

        if addr > self.addrs.len() {
            return Err(EntityError::Address(addr as isize));
        }

        Ok(self.addrs[addr])
    }

    /// Writes the provided data to the memory at the given address.
    ///
    /// This can be used to circumvent the type checker in cases where an operation is not dependent
    /// of the type of the data.
    pub fn put_bytes(&mut self, val: [u8; 4], addr: i16) -> Result<(), EntityError> {
        if addr < 0 {
            return Err(EntityError::Address(addr as isize));
        }

        let addr = addr as usize;

        if addr > self.addrs.len() {
            return Err(EntityError::Address(addr as isize));
        }

        self.addrs[addr] = val;
        Ok(())
    }

    #[inline]
    pub fn load<F>(&self, field: F) -> Result<F::Value, EntityError>
    where
        F: FieldAddr,
    {
        field.load(self)
    }

    #[inline]
    pub fn store<F>(&mut self, field: F, value: F::Value) -> Result<(), EntityError>
    where
        F: FieldAddr,
    {
        field.store(self, value)
    }

    /// Loads an `i32` from the given virtual address.
    pub fn get_int(&self, addr: i16) -> Result<i32, EntityError> {
        Ok(self.get_addr(addr)?.read_i32::<LittleEndian>()?)
    }

    /// Loads an `i32` from the given virtual address.
    pub fn put_int(&mut self, val: i32, addr: i16) -> Result<(), EntityError> {
        self.get_addr_mut(addr)?.write_i32::<LittleEndian>(val)?;
        Ok(())
    }

    /// Loads an `f32` from the given virtual address.
    pub fn get_float(&self, addr: i16) -> Result<f32, EntityError> {
        self.type_check(addr as usize, Type::QFloat)?;
        Ok(self.get_addr(addr)?.read_f32::<LittleEndian>()?)
    }

    /// Stores an `f32` at the given virtual address.
    pub fn put_float(&mut self, val: f32, addr: i16) -> Result<(), EntityError> {
        self.type_check(addr as usize, Type::QFloat)?;
        self.get_addr_mut(addr)?.write_f32::<LittleEndian>(val)?;
        Ok(())
    }

    /// Loads an `[f32; 3]` from the given virtual address.
    pub fn get_vector(&self, addr: i16) -> Result<[f32; 3], EntityError> {
        self.type_check(addr as usize, Type::QVector)?;

        let mut v = [0.0; 3];

        for i in 0..3 {
            v[i] = self.get_float(addr + i as i16)?;
        }

        Ok(v)
    }

    /// Stores an `[f32; 3]` at the given virtual address.
    pub fn put_vector(&mut self, val: [f32; 3], addr: i16) -> Result<(), EntityError> {
        self.type_check(addr as usize, Type::QVector)?;

        for i in 0..3 {
            self.put_float(val[i], addr + i as i16)?;
        }

        Ok(())
    }

    /// Loads a `StringId` from the given virtual address.
    pub fn string_id(&self, addr: i16) -> Result<StringId, EntityError> {
        self.type_check(addr as usize, Type::QString)?;

        Ok(StringId(
            self.get_addr(addr)?.read_i32::<LittleEndian>()? as usize
        ))
    }

    /// Stores a `StringId` at the given virtual address.
    pub fn put_string_id(&mut self, val: StringId, addr: i16) -> Result<(), EntityError> {
        self.type_check(addr as usize, Type::QString)?;

        self.get_addr_mut(addr)?
            .write_i32::<LittleEndian>(val.try_into().unwrap())?;
        Ok(())
    }

    /// Loads an `EntityId` from the given virtual address.
    pub fn entity_id(&self, addr: i16) -> Result<EntityId, EntityError> {
        self.type_check(addr as usize, Type::QEntity)?;

        match self.get_addr(addr)?.read_i32::<LittleEndian>()? {
            e if e < 0 => Err(EntityError::with_msg(format!("Negative entity ID ({})", e))),
            e => Ok(EntityId(e as usize)),
        }
    }

    /// Stores an `EntityId` at the given virtual address.
    pub fn put_entity_id(&mut self, val: EntityId, addr: i16) -> Result<(), EntityError> {
        self.type_check(addr as usize, Type::QEntity)?;

        self.get_addr_mut(addr)?
            .write_i32::<LittleEndian>(val.0 as i32)?;
        Ok(())
    }

    /// Loads a `FunctionId` from the given virtual address.
    pub fn function_id(&self, addr: i16) -> Result<FunctionId, EntityError> {
        self.type_check(addr as usize, Type::QFunction)?;
        Ok(FunctionId(
            self.get_addr(addr)?.read_i32::<LittleEndian>()? as usize
        ))
    }

    /// Stores a `FunctionId` at the given virtual address.
    pub fn put_function_id(&mut self, val: FunctionId, addr: i16) -> Result<(), EntityError> {
        self.type_check(addr as usize, Type::QFunction)?;
        self.get_addr_mut(addr)?
            .write_i32::<LittleEndian>(val.try_into().unwrap())?;
        Ok(())
    }
}
