/* The process machine once more, as a plain C interpreter, to compare speeds with. Words: registers or memory, and how
 * many thousand bursts of 10,000 instructions. */
#include <stdint.h>
#include <stdio.h>
#include <stdlib.h>
#include <string.h>

enum operation { SET, MOV, ADD, SUB, MUL, ADDI, DIV, MOD, LDB, STB, LDW, STW, JMP, JEQ, JNE, JLT, SYS };
enum end { LIMIT, CALL, BAD_STEP, PAGE_NEEDED };

struct instruction {
    uint8_t operation, first, second;
    uint16_t place;
    uint64_t number;
};

struct image {
    uint16_t counter;
    uint64_t registers[8];
    uint8_t *pages[8];
    uint64_t page_count;
    uint8_t away;
};

static int reach(struct image *image, uint64_t address, uint64_t count, int *end) {
    uint64_t top = 4096 * image->page_count;
    if (address > top || top - address < count) {
        *end = BAD_STEP;
        return 0;
    }
    for (uint64_t page = address / 4096; page <= (address + count - 1) / 4096; page++) {
        if (!image->pages[page]) {
            image->away = page;
            *end = PAGE_NEEDED;
            return 0;
        }
    }
    return 1;
}

static uint64_t load(struct image *image, uint64_t address, uint64_t count) {
    uint64_t word = 0;
    if (address % 4096 + count <= 4096) {
        memcpy(&word, image->pages[address / 4096] + address % 4096, count);
        return word;
    }
    for (uint64_t i = 0; i < count; i++)
        word |= (uint64_t)image->pages[(address + i) / 4096][(address + i) % 4096] << (8 * i);
    return word;
}

static void store(struct image *image, uint64_t address, uint64_t count, uint64_t word) {
    if (address % 4096 + count <= 4096) {
        memcpy(image->pages[address / 4096] + address % 4096, &word, count);
        return;
    }
    for (uint64_t i = 0; i < count; i++)
        image->pages[(address + i) / 4096][(address + i) % 4096] = word >> (8 * i);
}

__attribute__((noinline)) uint32_t burst(const struct instruction *code, uint16_t length, struct image *image, uint32_t limit, int *end) {
    uint64_t *r = image->registers;
    for (uint32_t done = 0; done < limit; done++) {
        if (image->counter >= length) {
            *end = BAD_STEP;
            return done;
        }
        const struct instruction *i = &code[image->counter];
        uint64_t a;
        switch (i->operation) {
        case SET: r[i->first] = i->number; break;
        case MOV: r[i->first] = r[i->second]; break;
        case ADD: r[i->first] += r[i->second]; break;
        case SUB: r[i->first] -= r[i->second]; break;
        case MUL: r[i->first] *= r[i->second]; break;
        case ADDI: r[i->first] += i->number; break;
        case DIV:
        case MOD:
            if (!r[i->second]) {
                *end = BAD_STEP;
                return done;
            }
            if (i->operation == DIV) r[i->first] /= r[i->second];
            else r[i->first] %= r[i->second];
            break;
        case LDB:
        case LDW:
            a = r[i->second];
            if (!reach(image, a, i->operation == LDB ? 1 : 8, end)) return done;
            r[i->first] = load(image, a, i->operation == LDB ? 1 : 8);
            break;
        case STB:
        case STW:
            a = r[i->first];
            if (!reach(image, a, i->operation == STB ? 1 : 8, end)) return done;
            store(image, a, i->operation == STB ? 1 : 8, r[i->second]);
            break;
        case JMP: image->counter = i->place; continue;
        case JEQ: image->counter = r[i->first] == r[i->second] ? i->place : image->counter + 1; continue;
        case JNE: image->counter = r[i->first] != r[i->second] ? i->place : image->counter + 1; continue;
        case JLT: image->counter = r[i->first] < r[i->second] ? i->place : image->counter + 1; continue;
        default: *end = CALL; return done;
        }
        image->counter++;
    }
    *end = LIMIT;
    return limit;
}

int main(int count, char **words) {
    static const struct instruction registers[] = {
        {SET, 3, 0, 0, 1000000}, {ADDI, 1, 0, 0, 1}, {ADD, 2, 1, 0, 0}, {JLT, 1, 3, 1, 0}, {SET, 1, 0, 0, 0}, {JMP, 0, 0, 1, 0},
    };
    static const struct instruction memory[] = {
        {SET, 3, 0, 0, 8000}, {LDB, 4, 5, 0, 0}, {ADDI, 4, 0, 0, 1}, {STB, 5, 4, 0, 0}, {LDW, 6, 5, 0, 0}, {ADD, 6, 4, 0, 0},
        {STW, 5, 6, 0, 0}, {ADDI, 5, 0, 0, 1}, {JLT, 5, 3, 1, 0}, {SET, 5, 0, 0, 0}, {JMP, 0, 0, 1, 0},
    };
    int in_registers = count > 1 && !strcmp(words[1], "registers");
    long bursts = count > 2 ? 1000 * atol(words[2]) : 1000;
    struct image image = {.page_count = 2, .pages = {calloc(1, 4096), calloc(1, 4096)}};
    uint64_t done = 0;
    int end = LIMIT;
    for (long i = 0; i < bursts; i++)
        done += burst(in_registers ? registers : memory, in_registers ? 6 : 11, &image, 10000, &end);
    uint64_t sum = 0;
    for (int i = 0; i < 8; i++) sum += image.registers[i];
    printf("%llu %llu\n", (unsigned long long)done, (unsigned long long)sum);
    return 0;
}
