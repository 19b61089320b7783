/* An instance whose cell, and in Opt its register, stand in a TPM 2.0: NV indices, never a PCR (docs/EMBEDDING.md). An
 * example for who has one; it isn't proved. docs/DEPLOYING.md, "Hardware", says who can still roll it back.
 *
 *     tpm init VARIANT MODULE | run | checkpoint
 *
 *     cc -o tpm tpm.c host.c libmemoir_c.a liblibc_c.a -ltss2-esys -ltss2-tctildr
 *
 * TCTI says how the TPM is reached (device:/dev/tpmrm0), INDEX the cell's index (01804d4d); the register's is the next. The
 * file `auth` of the folder has the secret by which both are read and written, `owner`, if any, the owner's value. */
#define _GNU_SOURCE
#include "host.h"

#include <errno.h>
#include <fcntl.h>
#include <signal.h>
#include <stdio.h>
#include <stdlib.h>
#include <string.h>
#include <sys/file.h>
#include <sys/stat.h>
#include <time.h>
#include <tss2/tss2_esys.h>
#include <tss2/tss2_tctildr.h>
#include <unistd.h>

/* Who has no secret neither reads nor writes, and wrong values lock nothing (NO_DA). The cell is written as a whole
 * alone. The register is in memory, kept over sleep, and emptied by a start. */
enum {
    SECRET_ALONE = TPMA_NV_AUTHREAD | TPMA_NV_AUTHWRITE | TPMA_NV_NO_DA,
    CELL_IS = SECRET_ALONE | TPMA_NV_WRITEALL,
    REGISTER_IS = SECRET_ALONE | TPM2_NT_EXTEND << TPMA_NV_TPM2_NT_SHIFT | TPMA_NV_ORDERLY | TPMA_NV_CLEAR_STCLEAR,
    NONE = ESYS_TR_NONE,
    NEVER_WRITTEN = TPM2_RC_NV_UNINITIALIZED, /* 0x14a */
    NO_INDEX = TPM2_RC_HANDLE | TPM2_RC_1, /* 0x18b */
};

static TSS2_TCTI_CONTEXT *tcti;
static ESYS_CONTEXT *esys;
static ESYS_TR cell = NONE, reg = NONE, session = NONE;
static TPM2B_AUTH auth = {.size = 32}, owner;
/* Whether the register may be written: it is, unless it was read and wasn't. */
static bool is_written = true;
/* Whether this program makes what is missing: the first start. */
static bool may_make;
static int folder = -1;

static TPM2_HANDLE index_of_cell(void)
{
    const char *word = getenv("INDEX");
    return word ? (TPM2_HANDLE)strtoul(word, NULL, 16) : 0x01804d4d;
}

static void disconnect(void)
{
    if (esys && session != NONE)
        Esys_FlushContext(esys, session);
    if (esys)
        Esys_Finalize(&esys);
    if (tcti)
        Tss2_TctiLdr_Finalize(&tcti);
    cell = reg = session = NONE;
    is_written = true;
}

/* What an answer of the TPM means. A code of the TPM, or of the kernel's layer over it, says that the command wasn't
 * carried out. Of all else that isn't known: a wrong HMAC, and an answer that didn't come. */
static TSS2_RC layer(TSS2_RC rc) { return rc & TSS2_RC_LAYER_MASK; }

static bool is_of_tpm(TSS2_RC rc) { return layer(rc) == TSS2_TPM_RC_LAYER || layer(rc) == TSS2_RESMGR_TPM_RC_LAYER; }

static bool is_busy(TSS2_RC rc)
{
    switch (rc & 0xffff) {
    case TPM2_RC_RETRY:
    case TPM2_RC_NV_RATE:
    case TPM2_RC_TESTING:
    case TPM2_RC_NV_UNAVAILABLE:
    case TPM2_RC_OBJECT_MEMORY:
    case TPM2_RC_SESSION_MEMORY:
    case TPM2_RC_MEMORY: return is_of_tpm(rc);
    default: return false;
    }
}

static bool is_off(TSS2_RC rc)
{
    return !is_of_tpm(rc) || rc == TPM2_RC_INITIALIZE || rc == TPM2_RC_FAILURE || rc == TPM2_RC_REBOOT;
}

/* Makes a command; again, where it surely wasn't carried out and may be soon. */
static TSS2_RC command(TSS2_RC (*once)(void *), void *data)
{
    TSS2_RC rc = once(data);
    struct timespec pause = {0, 20000000};
    for (int turn = 0; turn < 8 && is_busy(rc); turn++) {
        nanosleep(&pause, NULL);
        pause.tv_nsec = pause.tv_nsec < 400000000 ? 2 * pause.tv_nsec : pause.tv_nsec;
        rc = once(data);
    }
    return rc;
}

/* What the device answers. Behind a fault the connection is closed: no further step of this call is made, and the next
 * call's first step, which reads, opens it anew. */
static uint8_t told(const char *what, TSS2_RC rc)
{
    if (rc == TSS2_RC_SUCCESS)
        return MEMOIR_OK;
    fprintf(stderr, "%s: the TPM answered 0x%x\n", what, rc);
    disconnect();
    return is_off(rc) ? MEMOIR_OFF : MEMOIR_FAILED;
}

/* Commands. All that is secret is enciphered, and each answer has an HMAC. */

static void set(TPMA_SESSION way)
{
    Esys_TRSess_SetAttributes(esys, session, TPMA_SESSION_CONTINUESESSION | way, 0xff);
}

struct bytes {
    ESYS_TR index;
    uint8_t *bytes;
    uint16_t length;
};

static TSS2_RC read_once(void *data)
{
    struct bytes *it = data;
    TPM2B_MAX_NV_BUFFER *read = NULL;
    set(TPMA_SESSION_ENCRYPT);
    TSS2_RC rc = Esys_NV_Read(esys, it->index, it->index, session, NONE, NONE, it->length, 0, &read);
    if (rc == TSS2_RC_SUCCESS && read->size == it->length)
        memcpy(it->bytes, read->buffer, it->length);
    else if (rc == TSS2_RC_SUCCESS)
        rc = TSS2_ESYS_RC_MALFORMED_RESPONSE;
    Esys_Free(read);
    return rc;
}

static TSS2_RC write_once(void *data)
{
    struct bytes *it = data;
    TPM2B_MAX_NV_BUFFER written = {.size = it->length};
    memcpy(written.buffer, it->bytes, it->length);
    set(TPMA_SESSION_DECRYPT);
    return Esys_NV_Write(esys, it->index, it->index, session, NONE, NONE, &written, 0);
}

static TSS2_RC extend_once(void *data)
{
    struct bytes *it = data;
    TPM2B_MAX_NV_BUFFER value = {.size = it->length};
    memcpy(value.buffer, it->bytes, it->length);
    set(TPMA_SESSION_DECRYPT);
    return Esys_NV_Extend(esys, it->index, it->index, session, NONE, NONE, &value);
}

static TSS2_RC undefine_once(void *data)
{
    return Esys_NV_UndefineSpace(esys, ESYS_TR_RH_OWNER, *(ESYS_TR *)data, ESYS_TR_PASSWORD, NONE, NONE);
}

/* An index: where it is, its attributes and size, and its handle once it is open. */
struct index {
    TPM2_HANDLE at;
    TPMA_NV is;
    uint16_t size;
    ESYS_TR *handle;
};

static TSS2_RC define_once(void *data)
{
    struct index *it = data;
    TPM2B_NV_PUBLIC space = {
        .nvPublic = {.nvIndex = it->at, .nameAlg = TPM2_ALG_SHA256, .attributes = it->is, .dataSize = it->size}};
    return Esys_NV_DefineSpace(esys, ESYS_TR_RH_OWNER, ESYS_TR_PASSWORD, NONE, NONE, &auth, &space, it->handle);
}

static TSS2_RC find_once(void *data)
{
    struct index *it = data;
    return Esys_TR_FromTPMPublic(esys, it->at, NONE, NONE, NONE, it->handle);
}

/* Opens an index, which is made where it is missing if that may be; it has to be the one that is made here. */
static TSS2_RC open_index(struct index *it, bool is_made)
{
    TPM2B_NV_PUBLIC *is = NULL;
    TSS2_RC rc = command(find_once, it);
    if (rc == NO_INDEX && is_made)
        rc = command(define_once, it);
    if (rc != TSS2_RC_SUCCESS)
        return rc;
    rc = Esys_NV_ReadPublic(esys, *it->handle, NONE, NONE, NONE, &is, NULL);
    if (rc == TSS2_RC_SUCCESS &&
        ((is->nvPublic.attributes & ~(TPMA_NV)TPMA_NV_WRITTEN) != it->is || is->nvPublic.dataSize != it->size ||
         is->nvPublic.nameAlg != TPM2_ALG_SHA256))
        rc = TPM2_RC_NV_DEFINED;
    Esys_Free(is);
    return rc == TSS2_RC_SUCCESS ? Esys_TR_SetAuth(esys, *it->handle, &auth) : rc;
}

static TSS2_RC open_cell(void)
{
    struct index it = {index_of_cell(), CELL_IS, MEMOIR_CELL, &cell};
    return open_index(&it, may_make);
}

/* A register that is missing was never written. */
static TSS2_RC open_register(void)
{
    struct index it = {index_of_cell() + 1, REGISTER_IS, MEMOIR_REGISTER, &reg};
    return reg == NONE ? open_index(&it, true) : TSS2_RC_SUCCESS;
}

/* One session, bound to the cell's index: so `auth` stands on the bus once, when the index is made. */
static TSS2_RC open_session(void *data)
{
    (void)data;
    TPMT_SYM_DEF aes = {.algorithm = TPM2_ALG_AES, .keyBits = {.aes = 128}, .mode = {.aes = TPM2_ALG_CFB}};
    return Esys_StartAuthSession(esys, NONE, cell, NONE, NONE, NONE, NULL, TPM2_SE_HMAC, &aes, TPM2_ALG_SHA256, &session);
}

/* A program that was killed left its session, and a TPM without a resource manager has room for three. */
static void flush_sessions(void)
{
    for (uint8_t last = 0; last < 3; last++) {
        uint8_t flush[] = {0x80, 1, 0, 0, 0, 14, 0, 0, 1, 0x65, 2, 0, 0, last}, answer[64];
        size_t length = sizeof answer;
        if (Tss2_Tcti_Transmit(tcti, sizeof flush, flush) == TSS2_RC_SUCCESS)
            Tss2_Tcti_Receive(tcti, &length, answer, TSS2_TCTI_TIMEOUT_BLOCK);
    }
}

/* The files of the folder. */

static bool read_file(const char *name, uint8_t *bytes, size_t most, size_t *length)
{
    int file = open(name, O_RDONLY | O_NONBLOCK | O_NOFOLLOW | O_CLOEXEC);
    ssize_t got = file < 0 ? -1 : read(file, bytes, most);
    if (file >= 0)
        close(file);
    *length = got < 0 ? 0 : (size_t)got;
    return got >= 0;
}

/* The secret is on the disk before an index has it. */
static bool make_auth(void)
{
    int file = open("auth", O_WRONLY | O_CREAT | O_TRUNC | O_NOFOLLOW | O_CLOEXEC, 0600);
    bool is_done = file >= 0 && fchmod(file, 0600) == 0 && getentropy(auth.buffer, 32) == 0 &&
                   write(file, auth.buffer, 32) == 32 && fsync(file) == 0 && fsync(folder) == 0;
    if (file >= 0)
        close(file);
    return is_done;
}

/* Locks the folder, and reads the secrets. *is_blank: no instance was made here. */
static bool enter(bool *is_blank)
{
    size_t length;
    *is_blank = false;
    if (folder < 0) {
        folder = open(".", O_RDONLY | O_DIRECTORY | O_CLOEXEC);
        if (folder < 0 || flock(folder, LOCK_EX | LOCK_NB) != 0) {
            host_says("the folder");
            close(folder);
            folder = -1;
            return false;
        }
    }
    if (read_file("owner", owner.buffer, sizeof owner.buffer, &length))
        owner.size = (uint16_t)length;
    if (!read_file("auth", auth.buffer, 32, &length) && errno != ENOENT) {
        host_says("auth");
        return false;
    }
    *is_blank = length < 32;
    /* It was cut short before an index had it. */
    if (*is_blank && may_make && make_auth())
        *is_blank = false;
    return true;
}

static TSS2_RC connect_to_tpm(void)
{
    const char *way = getenv("TCTI") ? getenv("TCTI") : "device:/dev/tpmrm0";
    TSS2_RC rc = Tss2_TctiLdr_Initialize(way, &tcti);
    if (rc == TSS2_RC_SUCCESS && !strstr(way, "tpmrm"))
        flush_sessions();
    if (rc == TSS2_RC_SUCCESS)
        rc = Esys_Initialize(&esys, tcti, NULL);
    if (rc == TSS2_RC_SUCCESS)
        rc = Esys_TR_SetAuth(esys, ESYS_TR_RH_OWNER, &owner);
    if (rc == TSS2_RC_SUCCESS)
        rc = open_cell();
    return rc == TSS2_RC_SUCCESS ? command(open_session, NULL) : rc;
}

/* The devices. The first step of a call reads the cell: it alone opens the connection. */

static uint8_t read_cell(void *self, uint8_t bytes[MEMOIR_CELL])
{
    (void)self;
    bool is_blank;
    memset(bytes, 0, MEMOIR_CELL);
    if (!enter(&is_blank))
        return MEMOIR_FAILED;
    if (is_blank)
        return MEMOIR_OK;
    TSS2_RC rc = esys ? TSS2_RC_SUCCESS : connect_to_tpm();
    if (rc == TSS2_RC_SUCCESS)
        rc = command(read_once, &(struct bytes){cell, bytes, MEMOIR_CELL});
    return told("the cell", rc == NEVER_WRITTEN ? TSS2_RC_SUCCESS : rc);
}

static uint8_t write_cell(void *self, const uint8_t bytes[MEMOIR_CELL])
{
    (void)self;
    if (!esys)
        return MEMOIR_OFF;
    return told("the cell", command(write_once, &(struct bytes){cell, (uint8_t *)bytes, MEMOIR_CELL}));
}

static uint8_t read_register(void *self, uint8_t value[MEMOIR_REGISTER])
{
    (void)self;
    if (!esys)
        return MEMOIR_OFF;
    memset(value, 0, MEMOIR_REGISTER);
    TSS2_RC rc = open_register();
    if (rc == TSS2_RC_SUCCESS)
        rc = command(read_once, &(struct bytes){reg, value, MEMOIR_REGISTER});
    is_written = rc != NEVER_WRITTEN;
    return told("the register", rc == NEVER_WRITTEN ? TSS2_RC_SUCCESS : rc);
}

/* It is made anew, but where it was never written, as behind each start of the TPM. */
static uint8_t reset_register(void *self)
{
    (void)self;
    if (!esys)
        return MEMOIR_OFF;
    TSS2_RC rc = open_register();
    if (rc == TSS2_RC_SUCCESS && is_written)
        rc = command(undefine_once, &reg);
    if (rc == TSS2_RC_SUCCESS && is_written) {
        reg = NONE;
        rc = open_register();
    }
    return told("the register", rc);
}

/* The TPM refuses it where the register was emptied since it was read: its name in the HMAC says whether it is written. */
static uint8_t extend_register(void *self, const uint8_t value[MEMOIR_REGISTER])
{
    (void)self;
    if (!esys || reg == NONE)
        return MEMOIR_OFF;
    return told("the register", command(extend_once, &(struct bytes){reg, (uint8_t *)value, MEMOIR_REGISTER}));
}

static struct host_devices devices = {NULL, read_cell, write_cell, read_register, reset_register, extend_register};

#ifdef PLAYED
#include "played.h"
#endif

/* The system's random bytes, exclusive-or the TPM's, which stand on the bus in clear. */
static bool take_entropy(uint8_t entropy[64])
{
    if (getentropy(entropy, 64) != 0)
        return false;
    for (int half = 0; half < 64; half += 32) {
        TPM2B_DIGEST *random = NULL;
        if (told("random bytes", Esys_GetRandom(esys, NONE, NONE, NONE, 32, &random)) != MEMOIR_OK)
            return false;
        for (int i = 0; i < 32 && i < random->size; i++)
            entropy[half + i] ^= random->buffer[i];
        Esys_Free(random);
    }
    return true;
}

static int init(const char *variant, const char *module)
{
    uint8_t entropy[64];
    struct memoir_instance instance = {strcmp(variant, "opt") == 0 ? MEMOIR_OPT : MEMOIR_BASIC,
                                       memoir_module_id((const uint8_t *)module, strlen(module))};
    if ((instance.variant == MEMOIR_BASIC && strcmp(variant, "basic") != 0) || instance.module == 0)
        return host_stopped(HOST_USAGE, 0);
    may_make = true;
    enum host_status status = host_is_blank(&devices);
    if (status == HOST_DONE && instance.variant == MEMOIR_OPT && told("the register", open_register()) != MEMOIR_OK)
        status = HOST_PLATFORM;
    if (status == HOST_DONE && !take_entropy(entropy))
        status = HOST_READ;
    if (status == HOST_DONE)
        status = host_provision(&devices, host_slots_here(), &instance, entropy);
    if (status == HOST_DONE)
        return host_write(STDOUT_FILENO, "made\n", 5) ? HOST_DONE : HOST_WRITE;
    return host_stopped(status, 0);
}

int main(int count, char **words)
{
    if (!host_take_descriptors())
        return HOST_PLATFORM;
    /* The library writes to a socket without MSG_NOSIGNAL. */
    signal(SIGPIPE, SIG_IGN);
    setenv("TSS2_LOG", "all+NONE", 0);
#ifdef PLAYED
    play(&devices);
#endif
    int status = count == 4 && strcmp(words[1], "init") == 0         ? init(words[2], words[3])
                 : count == 2 && strcmp(words[1], "run") == 0        ? host_run(&devices, host_slots_here())
                 : count == 2 && strcmp(words[1], "checkpoint") == 0 ? host_close_segment(&devices)
                                                                     : host_stopped(HOST_USAGE, 0);
    disconnect();
    return status;
}
