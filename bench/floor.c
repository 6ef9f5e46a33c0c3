/* The floor of a load of keys: hashes each key's bytes in chunks and writes them, three times, by so many threads.
 *
 * usage: floor FOLDER THREADS READS < LENGTHS
 *
 * LENGTHS has a key's length a line. Thread i of THREADS takes the keys i, i + THREADS and so on. For each of three replicas it
 * takes the SHA-256 of each chunk of 16,384 bytes, writes the chunk into a slot of the replica's file in FOLDER, and syncs the file
 * once a piece of 65,536 bytes. With READS 1 it reads each key from one file and hashes it once in the place of all that. What it
 * prints is the seconds that took. The SHA-256 is written plainly, as the program's is: no instruction of its own for it. */
#include <fcntl.h>
#include <pthread.h>
#include <stdint.h>
#include <stdio.h>
#include <stdlib.h>
#include <string.h>
#include <time.h>
#include <unistd.h>

enum { SLOT = 16384, PIECE = 65536, REPLICAS = 3, MOST_KEYS = 4096 };

static const uint32_t K[64] = {
    0x428a2f98, 0x71374491, 0xb5c0fbcf, 0xe9b5dba5, 0x3956c25b, 0x59f111f1, 0x923f82a4, 0xab1c5ed5, 0xd807aa98, 0x12835b01, 0x243185be,
    0x550c7dc3, 0x72be5d74, 0x80deb1fe, 0x9bdc06a7, 0xc19bf174, 0xe49b69c1, 0xefbe4786, 0x0fc19dc6, 0x240ca1cc, 0x2de92c6f, 0x4a7484aa,
    0x5cb0a9dc, 0x76f988da, 0x983e5152, 0xa831c66d, 0xb00327c8, 0xbf597fc7, 0xc6e00bf3, 0xd5a79147, 0x06ca6351, 0x14292967, 0x27b70a85,
    0x2e1b2138, 0x4d2c6dfc, 0x53380d13, 0x650a7354, 0x766a0abb, 0x81c2c92e, 0x92722c85, 0xa2bfe8a1, 0xa81a664b, 0xc24b8b70, 0xc76c51a3,
    0xd192e819, 0xd6990624, 0xf40e3585, 0x106aa070, 0x19a4c116, 0x1e376c08, 0x2748774c, 0x34b0bcb5, 0x391c0cb3, 0x4ed8aa4a, 0x5b9cca4f,
    0x682e6ff3, 0x748f82ee, 0x78a5636f, 0x84c87814, 0x8cc70208, 0x90befffa, 0xa4506ceb, 0xbef9a3f7, 0xc67178f2};

static uint32_t turned(uint32_t x, int n) { return x >> n | x << (32 - n); }

static void block(uint32_t h[8], const unsigned char *p) {
    uint32_t w[64], v[8];
    for (int i = 0; i < 16; i++) w[i] = (uint32_t)p[4 * i] << 24 | p[4 * i + 1] << 16 | p[4 * i + 2] << 8 | p[4 * i + 3];
    for (int i = 16; i < 64; i++) {
        uint32_t a = w[i - 15], b = w[i - 2];
        w[i] = w[i - 16] + (turned(a, 7) ^ turned(a, 18) ^ a >> 3) + w[i - 7] + (turned(b, 17) ^ turned(b, 19) ^ b >> 10);
    }
    memcpy(v, h, sizeof v);
    for (int i = 0; i < 64; i++) {
        uint32_t t = v[7] + (turned(v[4], 6) ^ turned(v[4], 11) ^ turned(v[4], 25)) + ((v[4] & v[5]) ^ (~v[4] & v[6])) + K[i] + w[i];
        uint32_t u = (turned(v[0], 2) ^ turned(v[0], 13) ^ turned(v[0], 22)) + ((v[0] & v[1]) ^ (v[0] & v[2]) ^ (v[1] & v[2]));
        memmove(v + 1, v, 7 * sizeof *v);
        v[4] += t;
        v[0] = t + u;
    }
    for (int i = 0; i < 8; i++) h[i] += v[i];
}

static uint32_t digest(const unsigned char *p, size_t size) {
    uint32_t h[8] = {0x6a09e667, 0xbb67ae85, 0x3c6ef372, 0xa54ff53a, 0x510e527f, 0x9b05688c, 0x1f83d9ab, 0x5be0cd19};
    unsigned char last[128] = {0};
    size_t whole = size / 64 * 64, rest = size - whole, end = rest < 56 ? 64 : 128;
    for (size_t i = 0; i < whole; i += 64) block(h, p + i);
    memcpy(last, p + whole, rest);
    last[rest] = 0x80;
    for (int i = 0; i < 8; i++) last[end - 1 - i] = (unsigned char)((uint64_t)size * 8 >> 8 * i);
    for (size_t i = 0; i < end; i += 64) block(h, last + i);
    return h[0];
}

static size_t lengths[MOST_KEYS], starts[MOST_KEYS];
static int count, threads, reads, files[REPLICAS];
static volatile uint32_t sum;

static void *work(void *number) {
    unsigned char *bytes = calloc(1, 1 << 20);
    for (int key = (int)(intptr_t)number; key < count; key += threads) {
        size_t size = lengths[key];
        for (size_t i = 0; i < size; i++) bytes[i] = (unsigned char)(key + i + i / 256);
        if (reads) {
            if (pread(files[0], bytes, size, starts[key]) < 0) exit(1);
            sum += digest(bytes, size);
            continue;
        }
        for (size_t piece = 0; piece < size; piece += PIECE)
            for (int replica = 0; replica < REPLICAS; replica++) {
                size_t end = piece + PIECE < size ? piece + PIECE : size;
                for (size_t at = piece; at < end; at += SLOT) {
                    sum += digest(bytes + at, at + SLOT < end ? SLOT : end - at);
                    if (pwrite(files[replica], bytes + at, SLOT, starts[key] + at) != SLOT) exit(1);
                }
                if (fdatasync(files[replica])) exit(1);
            }
    }
    free(bytes);
    return 0;
}

int main(int argc, char **words) {
    if (argc != 4) return 2;
    threads = atoi(words[2]);
    reads = atoi(words[3]);
    size_t start = 0;
    while (count < MOST_KEYS && scanf("%zu", &lengths[count]) == 1) {
        starts[count] = start;
        start += (lengths[count++] + SLOT - 1) / SLOT * SLOT;
    }
    for (int i = 0; i < REPLICAS; i++) {
        char name[4096];
        snprintf(name, sizeof name, "%s/%d", words[1], i);
        files[i] = open(name, O_RDWR | O_CREAT, 0600);
        if (files[i] < 0) return 1;
    }
    struct timespec began, ended;
    pthread_t all[64];
    clock_gettime(CLOCK_MONOTONIC, &began);
    for (intptr_t i = 0; i < threads; i++) pthread_create(&all[i], 0, work, (void *)i);
    for (int i = 0; i < threads; i++) pthread_join(all[i], 0);
    clock_gettime(CLOCK_MONOTONIC, &ended);
    printf("%.6f\n", ended.tv_sec - began.tv_sec + (ended.tv_nsec - began.tv_nsec) / 1e9);
    return 0;
}
