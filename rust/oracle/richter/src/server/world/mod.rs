//! STUB of richter's `server/world`: a world without areas and models, all of whose entities are made by `create`. Richter's text are
//! the slots, the pointers (`ent_fld_addr_to_i32`, `ent_fld_addr_from_i32`), `alloc_uninitialized`, and `entity` to `entity_exists`.

// Carried-over text is neither laid out anew nor linted.
#[rustfmt::skip]
#[allow(clippy::all)]
mod entity;

use std::{cell::RefCell, rc::Rc};

use self::entity::Entity;
pub use self::entity::{EntityError, EntityTypeDef};

use crate::server::progs::{EntityFieldAddr, EntityId, FieldAddr, ProgsError, StringTable};

const MAX_ENTITIES: usize = 600;

#[derive(Debug)]
struct AreaEntity {
    entity: Entity,
    area_id: Option<usize>,
}

#[derive(Debug)]
enum AreaEntitySlot {
    Vacant,
    Occupied(AreaEntity),
}

/// STUB: richter's has areas and models beside these.
#[derive(Debug)]
pub struct World {
    string_table: Rc<RefCell<StringTable>>,
    type_def: Rc<EntityTypeDef>,

    slots: Box<[AreaEntitySlot]>,
}

impl World {
    /// STUB: richter's reads the map's models, and makes entity 0 of the first. Here as many entities of zeros as are asked for are
    /// made, and none of them is special.
    pub fn create(
        type_def: Rc<EntityTypeDef>,
        string_table: Rc<RefCell<StringTable>>,
        entities: usize,
    ) -> World {
        let mut slots = Vec::with_capacity(MAX_ENTITIES);
        for _ in 0..MAX_ENTITIES {
            slots.push(AreaEntitySlot::Vacant);
        }
        let mut world = World {
            string_table,
            type_def,
            slots: slots.into_boxed_slice(),
        };
        for _ in 0..entities {
            world.alloc_uninitialized().unwrap();
        }
        world
    }

    /// Convert an entity ID and field address to an internal representation used by the VM.
    ///
    /// This representation should be compatible with the one used by the original Quake.
    pub fn ent_fld_addr_to_i32(&self, ent_fld_addr: EntityFieldAddr) -> i32 {
        let total_addr =
            (ent_fld_addr.entity_id.0 * self.type_def.addr_count() + ent_fld_addr.field_addr.0) * 4;

        if total_addr > ::std::i32::MAX as usize {
            panic!("ent_fld_addr_to_i32: total_addr overflow");
        }

        total_addr as i32
    }

    /// Convert the internal representation of a field offset back to struct form.
    pub fn ent_fld_addr_from_i32(&self, val: i32) -> EntityFieldAddr {
        if val < 0 {
            panic!("ent_fld_addr_from_i32: negative value ({})", val);
        }

        if val % 4 != 0 {
            panic!("ent_fld_addr_from_i32: value % 4 != 0 ({})", val);
        }

        let total_addr = val as usize / 4;
        EntityFieldAddr {
            entity_id: EntityId(total_addr / self.type_def.addr_count()),
            field_addr: FieldAddr(total_addr % self.type_def.addr_count()),
        }
    }

    fn find_vacant_slot(&self) -> Result<usize, ()> {
        for (i, slot) in self.slots.iter().enumerate() {
            if let &AreaEntitySlot::Vacant = slot {
                return Ok(i);
            }
        }

        panic!("no vacant slots");
    }

    pub fn alloc_uninitialized(&mut self) -> Result<EntityId, ProgsError> {
        let slot_id = self.find_vacant_slot().unwrap();

        self.slots[slot_id] = AreaEntitySlot::Occupied(AreaEntity {
            entity: Entity::new(self.string_table.clone(), self.type_def.clone()),
            area_id: None,
        });

        Ok(EntityId(slot_id))
    }

    /// Returns a reference to an entity.
    ///
    /// # Panics
    ///
    /// This method panics if `entity_id` does not refer to a valid slot or if
    /// the slot is vacant.
    #[inline]
    pub fn entity(&self, entity_id: EntityId) -> &Entity {
        match self.slots[entity_id.0 as usize] {
            AreaEntitySlot::Vacant => panic!("no such entity: {:?}", entity_id),
            AreaEntitySlot::Occupied(ref e) => &e.entity,
        }
    }

    pub fn try_entity(&self, entity_id: EntityId) -> Result<&Entity, ProgsError> {
        if entity_id.0 as usize > self.slots.len() {
            return Err(ProgsError::with_msg(format!(
                "Invalid entity ID ({})",
                entity_id.0 as usize
            )));
        }

        match self.slots[entity_id.0 as usize] {
            AreaEntitySlot::Vacant => Err(ProgsError::with_msg(format!(
                "No entity at list entry {}",
                entity_id.0 as usize
            ))),
            AreaEntitySlot::Occupied(ref e) => Ok(&e.entity),
        }
    }

    pub fn entity_mut(&mut self, entity_id: EntityId) -> Result<&mut Entity, ProgsError> {
        if entity_id.0 as usize > self.slots.len() {
            return Err(ProgsError::with_msg(format!(
                "Invalid entity ID ({})",
                entity_id.0 as usize
            )));
        }

        match self.slots[entity_id.0 as usize] {
            AreaEntitySlot::Vacant => Err(ProgsError::with_msg(format!(
                "No entity at list entry {}",
                entity_id.0 as usize
            ))),
            AreaEntitySlot::Occupied(ref mut e) => Ok(&mut e.entity),
        }
    }

    pub fn entity_exists(&mut self, entity_id: EntityId) -> bool {
        matches!(
            self.slots[entity_id.0 as usize],
            AreaEntitySlot::Occupied(_)
        )
    }
}
