/* Loaded before the C library: notes which basic blocks of a program are entered, and which ways its conditional jumps go. The file
   RECORD, whose path is compiled in, has a table of the places to watch and a byte of notes for each. coverage.py makes it, and says
   what its fields are.

   Each place whose notes are not complete gets the instruction INT3, in the memory of this run alone. The signal that it raises notes
   what happens there. Once the notes of a place are complete, its first byte is put back. It calls nothing that another library here
   stands in for, and asks for no memory. If RECORD can't be opened, as where a run has too few descriptors, nothing is watched. */
#define _GNU_SOURCE
#include <elf.h>
#include <fcntl.h>
#include <signal.h>
#include <stdint.h>
#include <sys/auxv.h>
#include <sys/mman.h>
#include <sys/stat.h>
#include <sys/syscall.h>
#include <ucontext.h>
#include <unistd.h>

enum { ENTERED = 1, PASSED = 2, TAKEN = 4, INT3 = 0xcc };
/* After so many signals in a run, a jump that always went one way is no longer watched in that run. */
enum { PATIENCE = 20000, MOST_PLACES = 1 << 18 };

/* What is watched at a place, in the order of the places: the addresses are those in the program's file. */
struct place {
    uint32_t at, target;
    uint8_t needed, first, condition, length;
};

static struct {
    uint32_t count, from, to;
    struct place places[];
} *record;
static uint8_t *notes;
static uint8_t *base;
static uint16_t raised[MOST_PLACES];

/* Whether the condition of a jump holds, by the low four bits of its operation code (Intel's manual, Jcc). */
static int holds(uint8_t condition, uint64_t flags)
{
    int carry = flags & 1, parity = flags >> 2 & 1, zero = flags >> 6 & 1, sign = flags >> 7 & 1, overflow = flags >> 11 & 1;
    int is_so[] = { overflow, carry, zero, carry | zero, sign, parity, sign ^ overflow, zero | (sign ^ overflow) };
    return is_so[condition >> 1] ^ (condition & 1);
}

static struct place *place_at(uint32_t at)
{
    uint32_t low = 0, high = record->count;
    while (low < high) {
        uint32_t middle = low + (high - low) / 2;
        if (record->places[middle].at < at)
            low = middle + 1;
        else
            high = middle;
    }
    return low < record->count && record->places[low].at == at ? record->places + low : NULL;
}

static void note(int number, siginfo_t *info, void *context)
{
    greg_t *registers = ((ucontext_t *)context)->uc_mcontext.gregs;
    uint8_t *at = (uint8_t *)registers[REG_RIP] - 1;
    struct place *place = place_at(at - base);
    if (!place) {
        signal(SIGTRAP, SIG_DFL);
        return;
    }
    uint32_t index = place - record->places;
    uint8_t found = place->needed & ENTERED;
    registers[REG_RIP] = (greg_t)at;
    if (place->length) {
        int is_taken = holds(place->condition, registers[REG_EFL]);
        found |= is_taken ? TAKEN : PASSED;
        registers[REG_RIP] = (greg_t)(is_taken ? base + place->target : at + place->length);
    }
    found |= __atomic_fetch_or(notes + index, found, __ATOMIC_RELAXED);
    if ((found & place->needed) == place->needed || ++raised[index] == PATIENCE)
        *at = place->first;
}

/* Where the program is in memory. */
static uint8_t *base_of_program(void)
{
    const Elf64_Phdr *headers = (const Elf64_Phdr *)getauxval(AT_PHDR);
    for (unsigned long each = 0; each < getauxval(AT_PHNUM); each++)
        if (headers[each].p_type == PT_PHDR)
            return (uint8_t *)headers - headers[each].p_vaddr;
    return NULL;
}

__attribute__((constructor)) static void watch(void)
{
    struct sigaction action = { .sa_sigaction = note, .sa_flags = SA_SIGINFO };
    struct stat found;
    int file = syscall(SYS_openat, AT_FDCWD, RECORD, O_RDWR | O_CLOEXEC);
    if (file < 0)
        return;
    int is_there = syscall(SYS_fstat, file, &found) == 0;
    void *made = is_there ? mmap(NULL, found.st_size, PROT_READ | PROT_WRITE, MAP_SHARED, file, 0) : MAP_FAILED;
    syscall(SYS_close, file);
    base = base_of_program();
    if (made == MAP_FAILED || !base)
        return;
    record = made;
    notes = (uint8_t *)(record->places + record->count);
    if (mprotect(base + record->from, record->to - record->from, PROT_READ | PROT_WRITE | PROT_EXEC))
        return;
    sigaction(SIGTRAP, &action, NULL);
    for (uint32_t index = 0; index < record->count; index++) {
        struct place *place = record->places + index;
        if ((notes[index] & place->needed) != place->needed)
            base[place->at] = INT3;
    }
}
