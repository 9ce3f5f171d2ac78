// Atoms in a box without walls, attracted and pushed away by those near them (Lennard-Jones). Each step sorts them into
// cells, which a hash table of C++'s standard library finds by place, so that an atom meets those of cells round it.
#include <cmath>
#include <unordered_map>
#include <vector>

#include "floats.h"

// The linker calls this behind each export. That of wasi-libc closes files, with calls that no other kernel has.
extern "C" void __wasm_call_dtors() {}

constexpr int ROW = 9;        // atoms along an edge of the box
constexpr int CELLS = 4;      // cells along an edge of the box
constexpr double REACH = 2.5; // how far a force reaches: the edge of a cell
constexpr double EDGE = CELLS * REACH;
constexpr double STEP = 0.004; // of time

struct Vector {
    double x, y, z;
};

static Vector operator+(const Vector &a, const Vector &b) { return {a.x + b.x, a.y + b.y, a.z + b.z}; }
static Vector operator-(const Vector &a, const Vector &b) { return {a.x - b.x, a.y - b.y, a.z - b.z}; }
static Vector operator*(const Vector &a, double times) { return {a.x * times, a.y * times, a.z * times}; }
static double product(const Vector &a, const Vector &b) { return a.x * b.x + a.y * b.y + a.z * b.z; }

struct Atom {
    Vector place, speed, force;
};

using Cells = std::unordered_map<long long, std::vector<Atom *>>;

static long long key_of(int x, int y, int z) { return (static_cast<long long>(z) * 1000003 + y) * 1000003 + x; }

static Cells sorted(std::vector<Atom> &atoms) {
    Cells cells;
    for (Atom &atom : atoms) {
        const Vector at = atom.place * (1 / REACH);
        cells[key_of(static_cast<int>(at.x), static_cast<int>(at.y), static_cast<int>(at.z))].push_back(&atom);
    }
    return cells;
}

// Adds the forces between two atoms, of which the second one is seen at `shift`, and gives what they add to the energy.
static double meet(Atom &a, Atom &b, const Vector &shift) {
    const Vector between = a.place - (b.place + shift);
    const double square = product(between, between);
    if (square >= REACH * REACH) {
        return 0;
    }
    const double inverse = 1 / square, sixth = inverse * inverse * inverse;
    const Vector force = between * (24 * inverse * sixth * (2 * sixth - 1));
    a.force = a.force + force;
    b.force = b.force - force;
    return 4 * sixth * (sixth - 1);
}

// The cell's number along an edge of the box, and how far it lies outside of it.
static int inside(int cell, double &shift) {
    shift = cell < 0 ? -EDGE : cell >= CELLS ? EDGE : 0;
    return (cell + CELLS) % CELLS;
}

// All that the atoms of a cell add to the energy, among themselves and with the later half of the cells round it.
static double forces(const Cells &cells, const std::vector<Atom *> &here, int x, int y, int z) {
    double energy = 0;
    for (int side = 13; side < 27; side++) {
        Vector shift;
        const int beside = inside(x + side % 3 - 1, shift.x), above = inside(y + side / 3 % 3 - 1, shift.y);
        const auto found = cells.find(key_of(beside, above, inside(z + side / 9 - 1, shift.z)));
        if (found == cells.end()) {
            continue;
        }
        const std::vector<Atom *> &there = found->second;
        for (size_t i = 0; i < here.size(); i++) {
            for (size_t j = side == 13 ? i + 1 : 0; j < there.size(); j++) {
                energy += meet(*here[i], *there[j], shift);
            }
        }
    }
    return energy;
}

static double all_forces(std::vector<Atom> &atoms) {
    const Cells cells = sorted(atoms);
    double energy = 0;
    for (int cell = 0; cell < CELLS * CELLS * CELLS; cell++) {
        const int x = cell % CELLS, y = cell / CELLS % CELLS, z = cell / CELLS / CELLS;
        const auto found = cells.find(key_of(x, y, z));
        if (found != cells.end()) {
            energy += forces(cells, found->second, x, y, z);
        }
    }
    return energy;
}

static double wrapped(double place) { return place - EDGE * std::floor(place / EDGE); }

u64 kernel(u32 turns) {
    std::vector<Atom> atoms;
    u32 state = 1;
    const auto drawn = [&state] { return (state = state * 1103515245 + 12345) / 4294967296.0 - 0.5; };
    for (int i = 0; i < ROW * ROW * ROW; i++) {
        const Vector place = {i % ROW + 0.5, i / ROW % ROW + 0.5, i / ROW / ROW + 0.5};
        atoms.push_back({place * (EDGE / ROW), {drawn(), drawn(), drawn()}, {0, 0, 0}});
    }
    double energy = 0;
    for (u32 n = 0; n < turns; n++) {
        energy = all_forces(atoms);
        for (Atom &atom : atoms) {
            atom.speed = atom.speed + atom.force * STEP;
            const Vector to = atom.place + atom.speed * STEP;
            atom.place = {wrapped(to.x), wrapped(to.y), wrapped(to.z)};
            atom.force = {0, 0, 0};
            energy += product(atom.speed, atom.speed) / 2;
        }
    }
    return bits_of(energy);
}
