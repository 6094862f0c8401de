// chosen [SAMPLES] [MILLISECONDS]: nanoseconds an element over fields whose modulus is chosen at run time, of bf_field_multiply,
// bf_field_multiply_by and bf_field_dot_product, by NTL's GF2E and by GF-Complete, in one thread: the least of SAMPLES samples of MILLISECONDS
// each, over slices of 1,024 elements; those that bf_field_embed takes to a field of 64 or 128 bits; and microseconds that bf_field_init takes.
//
//   g++ -O3 -std=c++17 -Ibuild/include bench/chosen.cpp -o bench/target/chosen build/lib/libbinary_field.a -lntl -lgmp -lpthread -lgf_complete
#include <NTL/GF2E.h>
#include <NTL/GF2XFactoring.h>
#include <NTL/vec_GF2E.h>
#include <NTL/version.h>
#include <binary_field.h>

extern "C" {
#include <gf_complete.h>
}

#include <chrono>
#include <cstdio>
#include <cstdlib>
#include <cstring>
#include <functional>
#include <limits>
#include <string>
#include <vector>

using NTL::GF2E;
using NTL::GF2X;

namespace {

constexpr size_t LENGTH = 1024;
int samples = 100;
double sample = 2e6;
bool all_same = true;

double nanoseconds(long calls, const std::function<void()> &call) {
    const auto start = std::chrono::steady_clock::now();
    for (long i = 0; i < calls; i++) call();
    const std::chrono::duration<double, std::nano> taken = std::chrono::steady_clock::now() - start;
    return taken.count();
}

// The least time of a call.
double least(const std::function<void()> &call) {
    long calls = 1;
    double taken = nanoseconds(calls, call);
    while (taken * 2 < sample) {
        calls *= 2;
        taken = nanoseconds(calls, call);
    }
    calls = static_cast<long>(calls * sample / taken) + 1;
    double found = std::numeric_limits<double>::infinity();
    for (int i = 0; i < samples; i++) {
        const double each = nanoseconds(calls, call) / calls;
        if (each < found) found = each;
    }
    return found;
}

bf_u128 words_of(const GF2X &polynomial, long degree) {
    bf_u128 words = {{0, 0}};
    for (long i = 0; i < degree; i++)
        if (NTL::IsOne(NTL::coeff(polynomial, i))) words.words[i / 64] |= uint64_t{1} << i % 64;
    return words;
}

bool are_same(const bf_u128 &left, const bf_u128 &right) {
    return left.words[0] == right.words[0] && left.words[1] == right.words[1];
}

// GF-Complete's field, where it has one of that degree and modulus. Its words of 128 bits have the high half first.
struct Peer {
    gf_t field;
    long degree;
    bool is_there;

    Peer(const GF2X &modulus, long bits) : degree(bits), is_there(false) {
        if (bits != 8 && bits != 16 && bits != 32 && bits != 64 && bits != 128) return;
        const bf_u128 tail = words_of(modulus, bits);
        if (bits == 128 && tail.words[1] != 0) return;
        const uint64_t polynomial = bits < 32 ? tail.words[0] | uint64_t{1} << bits : tail.words[0];
        is_there = gf_init_hard(&field, static_cast<int>(bits), GF_MULT_DEFAULT, GF_REGION_DEFAULT, GF_DIVIDE_DEFAULT, polynomial, 0, 0,
                                nullptr, nullptr) != 0;
    }
    ~Peer() {
        if (is_there) gf_free(&field, 1);
    }

    std::vector<uint8_t> bytes_of(const std::vector<bf_u128> &values) const {
        std::vector<uint8_t> bytes(LENGTH * degree / 8);
        for (size_t i = 0; i < LENGTH; i++)
            if (degree == 128) {
                std::memcpy(&bytes[16 * i], &values[i].words[1], 8);
                std::memcpy(&bytes[16 * i + 8], &values[i].words[0], 8);
            } else {
                std::memcpy(&bytes[i * degree / 8], &values[i].words[0], degree / 8);
            }
        return bytes;
    }

    void by_scalar(uint8_t *from, uint8_t *to, bf_u128 scalar) {
        const int size = static_cast<int>(LENGTH * degree / 8);
        if (degree == 128) {
            uint64_t turned[2] = {scalar.words[1], scalar.words[0]};
            field.multiply_region.w128(&field, from, to, turned, size, 0);
        } else if (degree == 64) {
            field.multiply_region.w64(&field, from, to, scalar.words[0], size, 0);
        } else {
            field.multiply_region.w32(&field, from, to, static_cast<gf_val_32_t>(scalar.words[0]), size, 0);
        }
    }
};

// A row of each operation over the field.
void rows(const char *kind, const GF2X &modulus) {
    const long degree = NTL::deg(modulus);
    bf_field field;
    const bf_u128 tail = words_of(modulus, degree);
    if (bf_field_init(&field, degree, &tail) != BF_OK) std::exit(2);
    GF2E::init(modulus);
    std::vector<GF2E> x(LENGTH), y(LENGTH), z(LENGTH);
    std::vector<bf_u128> left(LENGTH), right(LENGTH), found(LENGTH);
    for (size_t i = 0; i < LENGTH; i++) {
        NTL::random(x[i]);
        do NTL::random(y[i]);
        while (NTL::IsZero(y[i]) || NTL::IsOne(y[i]));
        left[i] = words_of(NTL::rep(x[i]), degree);
        right[i] = words_of(NTL::rep(y[i]), degree);
    }
    uint32_t status = BF_OK;
    const double ours = least([&] { status |= bf_field_multiply(&field, left.data(), LENGTH, right.data(), LENGTH, found.data(), LENGTH); });
    const double theirs = least([&] {
        for (size_t i = 0; i < LENGTH; i++) NTL::mul(z[i], x[i], y[i]);
    });
    for (size_t i = 0; i < LENGTH; i++) all_same = all_same && are_same(found[i], words_of(NTL::rep(z[i]), degree));
    std::printf("| product     | %4ld | %-12s | %8.2f | %8.2f |          |\n", degree, kind, ours / LENGTH, theirs / LENGTH);

    const double scaled = least([&] { status |= bf_field_multiply_by(&field, left.data(), LENGTH, right.data(), found.data(), LENGTH); });
    const double their_scaled = least([&] {
        for (size_t i = 0; i < LENGTH; i++) NTL::mul(z[i], x[i], y[0]);
    });
    for (size_t i = 0; i < LENGTH; i++) all_same = all_same && are_same(found[i], words_of(NTL::rep(z[i]), degree));
    Peer peer(modulus, degree);
    std::string region = "        ";
    if (peer.is_there) {
        std::vector<uint8_t> from = peer.bytes_of(left), to(from.size());
        const double taken = least([&] { peer.by_scalar(from.data(), to.data(), right[0]); });
        all_same = all_same && to == peer.bytes_of(found);
        char text[16];
        std::snprintf(text, sizeof text, "%8.2f", taken / LENGTH);
        region = text;
    }
    std::printf("| by a scalar | %4ld | %-12s | %8.2f | %8.2f | %s |\n", degree, kind, scaled / LENGTH, their_scaled / LENGTH, region.c_str());
    NTL::vec_GF2E rows, columns;
    rows.SetLength(LENGTH);
    columns.SetLength(LENGTH);
    for (size_t i = 0; i < LENGTH; i++) {
        rows[i] = x[i];
        columns[i] = y[i];
    }
    bf_u128 sum = {{0, 0}};
    const double added = least([&] { status |= bf_field_dot_product(&field, left.data(), LENGTH, right.data(), LENGTH, &sum); });
    const double their_added = least([&] { NTL::InnerProduct(z[0], rows, columns); });
    all_same = all_same && are_same(sum, words_of(NTL::rep(z[0]), degree));
    std::printf("| dot product | %4ld | %-12s | %8.2f | %8.2f |          |\n", degree, kind, added / LENGTH, their_added / LENGTH);

    bf_field large;
    const bf_u128 large_tail = {{degree <= 64 ? 0x1bULL : 0x87ULL, 0}};
    bf_u128 root;
    if (bf_field_init(&large, degree <= 64 ? 64 : 128, &large_tail) == BF_OK && bf_field_embedding(&field, &large, &root) == BF_OK) {
        const double embedded = least([&] { status |= bf_field_embed(&field, &large, &root, left.data(), LENGTH, found.data(), LENGTH); });
        std::printf("| image       | %4ld | %-12s | %8.2f |          |          |\n", degree, kind, embedded / LENGTH);
    }
    const double made = least([&] { status |= bf_field_init(&field, degree, &tail); });
    all_same = all_same && status == BF_OK;
    std::printf("| init, us    | %4ld | %-12s | %8.2f |          |          |\n", degree, kind, made / 1000);
}

GF2X few_terms(std::initializer_list<long> exponents) {
    GF2X polynomial;
    for (long exponent : exponents) NTL::SetCoeff(polynomial, exponent);
    return polynomial;
}

}  // namespace

int main(int count, char **words) {
    if (count > 1) samples = std::atoi(words[1]);
    if (count > 2) sample = std::atoi(words[2]) * 1e6;
    NTL::SetSeed(NTL::ZZ(20261129));
    std::printf("form %s, NTL %s, slices of %zu elements\n\n", bf_processor(), NTL_VERSION, LENGTH);
    std::printf("| operation   | bits | modulus      |  ours ns |   NTL ns | GF-C. ns |\n|-------------|-----:|--------------|---------:|---------:|---------:|\n");
    // No polynomial of three terms whose degree is a multiple of 8 is irreducible, so that these have one bit less.
    for (const GF2X &it : {few_terms({7, 1, 0}), few_terms({15, 1, 0}), few_terms({31, 3, 0}), few_terms({63, 1, 0}), few_terms({127, 1, 0})})
        rows("trinomial", it);
    for (const GF2X &it : {few_terms({8, 4, 3, 2, 0}), few_terms({16, 5, 3, 1, 0}), few_terms({32, 7, 3, 2, 0}), few_terms({64, 4, 3, 1, 0}),
                           few_terms({128, 7, 2, 1, 0})})
        rows("pentanomial", it);
    for (long degree : {8, 16, 32, 64, 128}) {
        GF2X modulus;
        do NTL::BuildRandomIrred(modulus, NTL::BuildIrred_GF2X(degree));
        while (NTL::weight(modulus) * 3 < degree);
        rows("dense", modulus);
    }
    std::printf("\n%s\n", all_same ? "all computed the same" : "not all computed the same");
    return all_same ? 0 : 1;
}
