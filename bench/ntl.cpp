// ntl [SAMPLES] [MILLISECONDS]: nanoseconds an operation of NTL's GF2E modulo x^128 + x^7 + x^2 + x + 1, in one thread: the
// least of SAMPLES samples of MILLISECONDS each, over 1,024 elements. See README.md.
#include <NTL/GF2E.h>
#include <NTL/version.h>

#include <chrono>
#include <cstdio>
#include <cstdlib>
#include <functional>
#include <limits>
#include <vector>

using NTL::GF2E;

namespace {

constexpr int LENGTH = 1024;

double nanoseconds(long calls, const std::function<void()> &call) {
    const auto start = std::chrono::steady_clock::now();
    for (long i = 0; i < calls; i++) call();
    const std::chrono::duration<double, std::nano> taken = std::chrono::steady_clock::now() - start;
    return taken.count();
}

// `call` does LENGTH operations.
void row(const char *name, int samples, double sample, const std::function<void()> &call) {
    long calls = 1;
    double taken = nanoseconds(calls, call);
    while (taken * 2 < sample) {
        calls *= 2;
        taken = nanoseconds(calls, call);
    }
    calls = static_cast<long>(calls * sample / taken) + 1;
    double least = std::numeric_limits<double>::infinity();
    for (int i = 0; i < samples; i++) {
        const double each = nanoseconds(calls, call) / calls / LENGTH;
        if (each < least) least = each;
    }
    std::printf("| %-24s |  128 | %8.2f |\n", name, least);
}

std::vector<GF2E> nonzero_elements() {
    std::vector<GF2E> elements(LENGTH);
    for (auto &element : elements) {
        do NTL::random(element);
        while (NTL::IsZero(element));
    }
    return elements;
}

}  // namespace

int main(int count, char **words) {
    const int samples = count > 1 ? std::atoi(words[1]) : 100;
    const double sample = (count > 2 ? std::atoi(words[2]) : 2) * 1e6;
    NTL::GF2X modulus;
    for (long exponent : {128, 7, 2, 1, 0}) NTL::SetCoeff(modulus, exponent);
    GF2E::init(modulus);
    NTL::SetSeed(NTL::ZZ(128));
    const auto left = nonzero_elements();
    const auto right = nonzero_elements();
    auto out = nonzero_elements();
    GF2E chained = right[0];

    std::printf("NTL %s, GF2E modulo x^128 + x^7 + x^2 + x + 1\n\n", NTL_VERSION);
    std::printf("| operation                | bits |   NTL ns |\n|--------------------------|-----:|---------:|\n");
    row("product, throughput", samples, sample, [&] {
        for (int i = 0; i < LENGTH; i++) NTL::mul(out[i], left[i], right[i]);
    });
    row("product, latency", samples, sample, [&] {
        for (int i = 0; i < LENGTH; i++) NTL::mul(chained, chained, left[i]);
    });
    row("square, throughput", samples, sample, [&] {
        for (int i = 0; i < LENGTH; i++) NTL::sqr(out[i], left[i]);
    });
    row("inverse, throughput", samples, sample, [&] {
        for (int i = 0; i < LENGTH; i++) NTL::inv(out[i], left[i]);
    });
    NTL::GF2X sum, product;
    row("dot product, term", samples, sample, [&] {
        NTL::clear(sum);
        for (int i = 0; i < LENGTH; i++) {
            NTL::mul(product, NTL::rep(left[i]), NTL::rep(right[i]));
            NTL::add(sum, sum, product);
        }
        NTL::conv(chained, sum);
    });
    // The results are used, so that no compiler drops them.
    std::printf("\n%ld\n", NTL::deg(NTL::rep(chained)) + NTL::deg(NTL::rep(out[0])));
}
