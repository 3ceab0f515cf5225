// From an address to its block and the offset in it. Each allocation is a separate block, even at an
// address that was used before; so is the stretch of a stack with a task's frames. Static data is block 1; all other
// memory (mapped by the program, or by libraries before the recorder began) is block 2, by its address.
//
// Allocations stand in a table that shadows the address space: a page that one block fills holds its slot, any other page
// has a slot for each 16 bytes, which is what the allocator aligns to. A released block keeps its places there
// until others take them or KEPT_SLOTS more have been released, so that a late access is attributed to it.
#include "recorder.h"
#include <sched.h>
#include <stdlib.h>
#include <sys/mman.h>

#define STATIC_BLOCK 1
#define OTHER_BLOCK 2
#define PAGE_BITS 12
#define PAGE ((uintptr_t)1 << PAGE_BITS)
#define GRANULE_BITS 4
#define GRANULES (PAGE >> GRANULE_BITS)
#define DIRECTORY_BITS 18
#define DIRECTORIES ((uintptr_t)1 << (47 - PAGE_BITS - DIRECTORY_BITS))
#define SLOTS_BITS 14
#define SLOT_CHUNKS ((uint32_t)1 << 16)
#define KEPT_SLOTS ((uint32_t)1 << 14)      // of blocks that were released

// An allocation. `number` is the slot's own one, or, in the list of unused slots, that of the next.
typedef struct {
    uintptr_t base;
    size_t size;
    uint32_t block, number;
    bool is_live;
} Slot;

typedef struct {
    _Atomic uint32_t slots[GRANULES];
} Granules;

// Per page: 0, or twice its slot and 1, or the address of its granules.
typedef struct {
    _Atomic uintptr_t pages[(size_t)1 << DIRECTORY_BITS];
} Directory;

static Directory *_Atomic directories[DIRECTORIES];
static Slot *_Atomic slot_chunks[SLOT_CHUNKS];
static uint32_t slot_count = 1, unused_slots;
static uint32_t kept_slots[KEPT_SLOTS], kept_at;      // a ring, the oldest at `kept_at`
static char *arena, *arena_end;
static atomic_flag lock = ATOMIC_FLAG_INIT;
static _Atomic uint32_t next_block = OTHER_BLOCK + 1;
uintptr_t program_base, program_end;

static void take_lock(void) {
    while (atomic_flag_test_and_set_explicit(&lock, memory_order_acquire)) sched_yield();
}
static void give_lock(void) { atomic_flag_clear_explicit(&lock, memory_order_release); }

uint32_t block_new(void) { return atomic_fetch_add_explicit(&next_block, 1, memory_order_relaxed); }

static void *map_memory(size_t size) {
    void *memory = mmap(NULL, size, PROT_READ | PROT_WRITE, MAP_PRIVATE | MAP_ANONYMOUS | MAP_NORESERVE, -1, 0);
    if (memory == MAP_FAILED) abort();
    return memory;
}

static inline Slot *slot_at(uint32_t slot) {
    Slot *chunk = atomic_load_explicit(&slot_chunks[slot >> SLOTS_BITS], memory_order_acquire);
    return &chunk[slot & ((1u << SLOTS_BITS) - 1)];
}

// Under the lock.
static uint32_t take_slot(void) {
    uint32_t slot = unused_slots;
    if (slot) {
        unused_slots = slot_at(slot)->number;
        return slot;
    }
    slot = slot_count++;
    if (slot >> SLOTS_BITS == SLOT_CHUNKS) abort();
    if (!slot_chunks[slot >> SLOTS_BITS]) slot_chunks[slot >> SLOTS_BITS] = map_memory(sizeof(Slot) << SLOTS_BITS);
    return slot;
}

// Under the lock.
static Granules *new_granules(void) {
    if (arena == arena_end) {
        arena = map_memory(sizeof(Granules) * 1024);
        arena_end = arena + sizeof(Granules) * 1024;
    }
    Granules *granules = (Granules *)arena;
    arena += sizeof(Granules);
    return granules;
}

// Under the lock: the place of a page in the table.
static _Atomic uintptr_t *page_entry(uintptr_t page) {
    Directory *_Atomic *place = &directories[page >> DIRECTORY_BITS];
    if (!*place) *place = map_memory(sizeof(Directory));
    return &(*place)->pages[page & (((uintptr_t)1 << DIRECTORY_BITS) - 1)];
}

// Under the lock: the granules of a page, which have what the page had so far.
static Granules *page_granules(_Atomic uintptr_t *entry) {
    if (*entry && !(*entry & 1)) return (Granules *)*entry;
    Granules *granules = new_granules();
    for (size_t at = 0; at < GRANULES; at++) granules->slots[at] = (uint32_t)(*entry >> 1);
    *entry = (uintptr_t)granules;
    return granules;
}

// Under the lock: gives a part of a page to a slot. With `of` it takes the places of that slot only.
static void set_in_page(uintptr_t from, uintptr_t to, uint32_t slot, uint32_t of) {
    _Atomic uintptr_t *entry = page_entry(from >> PAGE_BITS);
    bool has_granules = *entry && !(*entry & 1);
    if (of && !has_granules && *entry != ((uintptr_t)of << 1 | 1)) return;
    if (!has_granules && to - from == PAGE) {
        *entry = slot ? (uintptr_t)slot << 1 | 1 : 0;
        return;
    }
    Granules *granules = page_granules(entry);
    size_t first = (from & (PAGE - 1)) >> GRANULE_BITS;
    size_t last = first + ((to - from + 15) >> GRANULE_BITS);
    for (size_t at = first; at < last; at++)
        if (!of || granules->slots[at] == of) atomic_store_explicit(&granules->slots[at], slot, memory_order_relaxed);
}

static void set_range(uintptr_t from, size_t size, uint32_t slot, uint32_t of) {
    uintptr_t end = from + size;
    while (from < end) {
        uintptr_t page_end = (from & ~(PAGE - 1)) + PAGE;
        uintptr_t to = end < page_end ? end : page_end;
        set_in_page(from, to, slot, of);
        from = to;
    }
}

// Under the lock: keeps a released slot, and lets the one go that was kept for longest.
static void keep_slot(uint32_t number) {
    uint32_t oldest = kept_slots[kept_at];
    kept_slots[kept_at] = number;
    kept_at = (kept_at + 1) % KEPT_SLOTS;
    if (!oldest) return;
    Slot *slot = slot_at(oldest);
    set_range(slot->base, slot->size, 0, oldest);
    slot->base = 0;
    slot->number = unused_slots;
    unused_slots = oldest;
}

// The slot of the allocation that an address lies in; NULL if there is none.
static inline Slot *find_slot(uintptr_t address) {
    uintptr_t page = address >> PAGE_BITS;
    if (page >> DIRECTORY_BITS >= DIRECTORIES) return NULL;
    Directory *directory = atomic_load_explicit(&directories[page >> DIRECTORY_BITS], memory_order_acquire);
    if (!directory) return NULL;
    uintptr_t entry = atomic_load_explicit(&directory->pages[page & (((uintptr_t)1 << DIRECTORY_BITS) - 1)], memory_order_acquire);
    if (!entry) return NULL;
    if (entry & 1) return slot_at((uint32_t)(entry >> 1));
    size_t granule = (address & (PAGE - 1)) >> GRANULE_BITS;
    uint32_t slot = atomic_load_explicit(&((Granules *)entry)->slots[granule], memory_order_relaxed);
    return slot ? slot_at(slot) : NULL;
}

// A new allocation is a new block, logged if a task made it.
void block_born(uintptr_t base, size_t size, bool is_told) {
    if (!base || size == 0) return;
    uint32_t block = block_new();
    take_lock();
    uint32_t slot = take_slot();
    *slot_at(slot) = (Slot){base, size, block, slot, true};
    set_range(base, size, slot, 0);
    give_lock();
    if (is_told) log_line(me, 'a', 2, (uint64_t[]){block, size});
}

// The same for its release, which must come before the allocator can give the address to another one.
void block_released(uintptr_t base, bool is_told) {
    Slot *slot = find_slot(base);
    if (!slot || slot->base != base || !slot->is_live) return;
    if (is_told) log_line(me, 'f', 1, (uint64_t[]){slot->block});
    take_lock();
    slot->is_live = false;
    keep_slot(slot->number);
    give_lock();
}

// The requested length of an allocation; 0 if unknown.
size_t block_size(uintptr_t base) {
    const Slot *slot = find_slot(base);
    return slot && slot->base == base ? slot->size : 0;
}

static uint32_t stack_block(const Thread *t, uintptr_t address, uint64_t *offset) {
    uint32_t at = t->segment_count > 0 ? t->segment_count - 1 : 0;
    while (at > 0 && address >= t->segments[at].base) at--;
    *offset = address - t->stack_low;
    return t->segments[at].block;
}

static bool is_on_stack(const Thread *t, uintptr_t address) { return address - t->stack_low < t->stack_high - t->stack_low; }

static uint32_t other_block(uintptr_t address, uint64_t *offset) {
    uint32_t count = thread_count;
    for (uint32_t k = 0; k < count; k++) {
        const Thread *other = threads[k];
        if (other && is_on_stack(other, address)) return stack_block(other, address, offset);
    }
    *offset = address;
    return OTHER_BLOCK;
}

uint32_t block_of(Thread *t, uintptr_t address, uint64_t *offset) {
    if (is_on_stack(t, address)) return stack_block(t, address, offset);
    const Slot *slot = find_slot(address);
    if (slot) {
        *offset = address - slot->base;
        return slot->block;
    }
    if (address - program_base < program_end - program_base) {
        *offset = address - program_base;
        return STATIC_BLOCK;
    }
    return other_block(address, offset);
}
