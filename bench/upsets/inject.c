// Flips one bit of a running process at a time, and sorts what came of it. x86-64 Linux alone.
//
//     inject trace RIGHT TRACE PROGRAM WORD..
//     inject flips RIGHT TRACE SEED DONE KIND FROM COUNT [KIND FROM COUNT].. -- PROGRAM WORD..
//
// `trace` carries out the program once, instruction by instruction, writes their addresses to TRACE, 8 bytes each, and prints how many there are. A moment is
// a number in this list: an instruction is drawn, each as likely as each other, and where it repeats itself, as a copy of bytes does, one of its times. So it
// has nothing to do with the clock, none lies behind the program's end, and a seed gives the same flips on a machine that is busy.
//
// `flips` carries out the program once more: this process is the leader. It is brought to each moment that was drawn, one after another, by breakpoints and
// single steps, stands there at the address of the trace, or else all ends with status 1, and is copied, as by fork. A bit of the copy is flipped, and the copy
// goes on by itself, at full speed, to its end. The leader isn't disturbed, and goes on to the next moment.
//
// RIGHT is the file of what the undisturbed program prints. KIND is `register`, `flags`, `memory` or `none`, which flips nothing. Flip i of a kind is drawn
// from the seed, the kind and i alone. For each, in the order of the moments, a line is printed, but for the first DONE:
//
//     KIND NUMBER MOMENT OBJECT+OFFSET LINES PLACE BIT OUTCOME STATUS [got TEXT want TEXT]
//
// with the instruction that would come next, as an offset from the lowest address of the file it is of, the lines that were printed before, and the outcome
// (`sorted`, below).
#define _GNU_SOURCE
#include <fcntl.h>
#include <grp.h>
#include <sched.h>
#include <signal.h>
#include <stdarg.h>
#include <stddef.h>
#include <stdint.h>
#include <stdio.h>
#include <stdlib.h>
#include <string.h>
#include <sys/mman.h>
#include <sys/personality.h>
#include <sys/ptrace.h>
#include <sys/resource.h>
#include <sys/syscall.h>
#include <sys/user.h>
#include <sys/wait.h>
#include <time.h>
#include <unistd.h>

enum { TEXT_MOST = 1 << 20, FDS_MOST = 16, REGIONS_MOST = 4096, PAGE = 4096, RED_ZONE = 128, NOBODY = 65534, LIST_FD = 100 };
enum { LOOK_MOST = 20000, STEPS_MOST = 4 }; // instructions that a breakpoint passes over at the most, and that are stepped rather than to set one
static const unsigned long long TRAP_FLAG = 0x100;
static const double CPU_MOST = 0.5;    // seconds of the processor, many times what a whole run takes: a copy that takes more hangs
static const double ASLEEP_MOST = 2.0; // seconds of the clock that a copy may sleep: nothing that it could wait for comes

static void fail(const char *form, ...) {
    va_list rest;
    va_start(rest, form);
    fputs("inject: ", stderr);
    vfprintf(stderr, form, rest);
    fputc('\n', stderr);
    exit(1);
}

// ---- what is drawn

// The way of the undisturbed program.
typedef struct {
    uint64_t *address; // at each moment: of the instruction that comes next
    uint32_t *id;      // a number for each address
    uint32_t *seen;    // by which look at the way an address was last seen
    uint32_t looks;
    size_t length;
    size_t *from; // the moment of each instruction: one that repeats itself has a moment for each time, and is drawn as one
    size_t instructions;
} Trace;

typedef enum { REGISTER, FLAGS, MEMORY, NONE } Kind;
static const char *const KINDS[] = {"register", "flags", "memory", "none"};

typedef struct {
    Kind kind;
    long number;
    uint64_t moment, place, bit;
} Flip;

static uint64_t mixed(uint64_t z) { // splitmix64
    z = (z ^ (z >> 30)) * 0xBF58476D1CE4E5B9ull;
    z = (z ^ (z >> 27)) * 0x94D049BB133111EBull;
    return z ^ (z >> 31);
}

// A number below `bound`, by a draw of 64 bits: the bias is below bound / 2^64.
static uint64_t below(uint64_t bound, uint64_t draw) { return (unsigned __int128)draw * bound >> 64; }

static Flip drawn(uint64_t seed, Kind kind, long number, const Trace *trace) {
    uint64_t draw[4];
    for (int i = 0; i < 4; i++) draw[i] = mixed(mixed(mixed(seed) + kind) + 0x9E3779B97F4A7C15ull * (4 * (uint64_t)number + (uint64_t)i + 1));
    size_t which = below(trace->instructions, draw[0]);
    size_t from = trace->from[which], to = which + 1 < trace->instructions ? trace->from[which + 1] : trace->length;
    return (Flip){kind, number, from + below(to - from, draw[3]), draw[1], draw[2]};
}

static int by_moment(const void *a, const void *b) {
    const Flip *x = a, *y = b;
    if (x->moment != y->moment) return x->moment < y->moment ? -1 : 1;
    if (x->kind != y->kind) return x->kind < y->kind ? -1 : 1;
    return x->number < y->number ? -1 : x->number > y->number;
}

// ---- places of bits

static const struct { const char *name; size_t at; } REGISTERS[] = {
#define REG(r) {#r, offsetof(struct user_regs_struct, r)}
    REG(rax), REG(rbx), REG(rcx), REG(rdx), REG(rsi), REG(rdi), REG(rbp), REG(rsp),
    REG(r8),  REG(r9),  REG(r10), REG(r11), REG(r12), REG(r13), REG(r14), REG(r15),
};
static const struct { const char *name; int bit; } FLAG_BITS[] = {{"CF", 0}, {"PF", 2}, {"AF", 4}, {"ZF", 6}, {"SF", 7}, {"DF", 10}, {"OF", 11}};

typedef struct {
    uint64_t from, to;
    const char *name;
} Region;

typedef struct {
    pid_t pid;
    uint64_t syscall_at;     // the address of a `syscall` instruction
    int pagemap, pidfd, out; // `out` has the program's standard output
    const char *program;
} Leader;

// Calls `use` on each mapping, until it answers 1.
static void each_mapping(pid_t pid, int (*use)(void *to, uint64_t from, uint64_t end, const char *may, uint64_t offset, const char *name), void *to) {
    char path[64], line[4400];
    snprintf(path, sizeof path, "/proc/%d/maps", pid);
    FILE *maps = fopen(path, "r");
    if (!maps) fail("the mappings of the program can't be read");
    while (fgets(line, sizeof line, maps)) {
        unsigned long from, end, offset;
        char may[8], name[4096] = "";
        if (sscanf(line, "%lx-%lx %7s %lx %*s %*s %4095[^\n]", &from, &end, may, &offset, name) < 4) fail("a mapping can't be read");
        if (use(to, from, end, may, offset, name)) break;
    }
    fclose(maps);
}

typedef struct {
    const Leader *leader;
    uint64_t lowest;   // of the stack, what is in use
    uint64_t file_end; // where the last mapping of a file ends: behind it stands data that begins with 0
    Region region[REGIONS_MOST];
    int count;
} Touched;

// The pages of a writable mapping that are there, since the program has touched them. Of the stack, the bytes from the red zone up.
static int add_touched(void *to, uint64_t from, uint64_t end, const char *may, uint64_t offset, const char *name) {
    (void)offset;
    Touched *all = to;
    int is_data = name[0] == '/' || (!name[0] && from == all->file_end);
    if (name[0] == '/') all->file_end = end;
    if (may[1] != 'w') return 0;
    const char *called = !strcmp(name, "[stack]") ? "stack" : is_data ? "data" : "heap";
    for (uint64_t page = from; page < end; page += PAGE) {
        uint64_t entry;
        if (pread(all->leader->pagemap, &entry, sizeof entry, (off_t)(page / PAGE * sizeof entry)) != sizeof entry) fail("a page can't be looked up");
        if (!(entry >> 62)) continue;
        uint64_t low = called[0] == 's' && all->lowest > page ? all->lowest : page;
        if (low >= page + PAGE) continue;
        if (all->count == REGIONS_MOST) fail("the program has more pages than are looked at");
        all->region[all->count++] = (Region){low, page + PAGE, called};
    }
    return 0;
}

// The bytes that the program has in use: `place` of them, which counts them all, is drawn by the flip.
static void find_touched(Touched *all, const Leader *leader, const struct user_regs_struct *regs) {
    all->leader = leader;
    all->lowest = regs->rsp - RED_ZONE;
    all->file_end = 0;
    all->count = 0;
    each_mapping(leader->pid, add_touched, all);
}

static int has_syscall(void *to, uint64_t from, uint64_t end, const char *may, uint64_t offset, const char *name) {
    (void)offset;
    Leader *leader = to;
    if (may[2] != 'x' || may[0] != 'r' || !strcmp(name, "[vsyscall]")) return 0;
    char path[64];
    snprintf(path, sizeof path, "/proc/%d/mem", leader->pid);
    int memory = open(path, O_RDONLY | O_CLOEXEC);
    unsigned char *bytes = malloc(end - from);
    ssize_t count = pread(memory, bytes, end - from, (off_t)from);
    for (ssize_t i = 0; i + 1 < count && !leader->syscall_at; i++)
        if (bytes[i] == 0x0f && bytes[i + 1] == 0x05) leader->syscall_at = from + (uint64_t)i;
    free(bytes);
    close(memory);
    return leader->syscall_at != 0;
}

typedef struct {
    uint64_t address, base; // the base is the lowest address of the object that the address is of
    char name[4096];
} Object;

static int find_object(void *to, uint64_t from, uint64_t end, const char *may, uint64_t offset, const char *name) {
    (void)may, (void)offset;
    Object *object = to;
    const char *slash = strrchr(name, '/');
    const char *last = slash ? slash + 1 : name[0] ? name : "?";
    if (strcmp(object->name, last)) {
        snprintf(object->name, sizeof object->name, "%s", last);
        object->base = from;
    }
    return object->address >= from && object->address < end;
}

// ---- the leader

static int wait_for(pid_t pid) {
    int status;
    if (waitpid(pid, &status, __WALL) != pid) fail("the program can't be waited for");
    return status;
}

static void limit(int what, rlim_t most) {
    struct rlimit both = {most, most};
    setrlimit(what, &both);
}

// Becomes the program: always at the same addresses, with no environment, and as a user that owns nothing where this one may become it.
static void become(int out, int list, char **words) {
    int none = open("/dev/null", O_RDWR);
    if (list >= 0) dup2(list, LIST_FD);
    dup2(none, 0);
    dup2(out, 1);
    dup2(none, 2);
    for (int fd = 3; fd < 64; fd++) close(fd);
    setpgid(0, 0);
    sigset_t all;
    sigemptyset(&all);
    sigprocmask(SIG_SETMASK, &all, NULL);
    personality(ADDR_NO_RANDOMIZE);
    limit(RLIMIT_AS, 1ul << 31);
    limit(RLIMIT_CORE, 0);
    limit(RLIMIT_FSIZE, TEXT_MOST);
    limit(RLIMIT_STACK, 8ul << 20);
    if (geteuid() == 0 && (setgroups(0, NULL) || setgid(NOBODY) || setuid(NOBODY))) _exit(99);
    limit(RLIMIT_NPROC, 16);
    ptrace(PTRACE_TRACEME, 0, NULL, NULL);
    char *empty[] = {NULL};
    execve(words[0], words, empty);
    _exit(99);
}

static Leader start(char **words, int list) {
    Leader leader = {.program = words[0], .out = memfd_create("out", 0)};
    leader.pid = fork();
    if (leader.pid < 0) fail("no process can be made");
    if (leader.pid == 0) become(leader.out, list, words);
    if (!WIFSTOPPED(wait_for(leader.pid))) fail("%s can't be carried out", words[0]);
    ptrace(PTRACE_SETOPTIONS, leader.pid, NULL, PTRACE_O_EXITKILL | PTRACE_O_TRACEFORK | PTRACE_O_TRACEVFORK | PTRACE_O_TRACECLONE);
    char path[64];
    snprintf(path, sizeof path, "/proc/%d/pagemap", leader.pid);
    leader.pagemap = open(path, O_RDONLY | O_CLOEXEC);
    leader.pidfd = (int)syscall(SYS_pidfd_open, leader.pid, 0);
    each_mapping(leader.pid, has_syscall, &leader);
    if (leader.pagemap < 0 || leader.pidfd < 0 || !leader.syscall_at) fail("the program can't be looked into");
    return leader;
}

// Carries out one instruction; 0 where the program has ended.
static int step(const Leader *leader) {
    int signal = 0;
    for (;;) {
        if (ptrace(PTRACE_SINGLESTEP, leader->pid, NULL, signal)) fail("the program can't be stepped");
        int status = wait_for(leader->pid);
        if (WIFEXITED(status) && WEXITSTATUS(status) == 0) return 0;
        if (!WIFSTOPPED(status)) fail("the undisturbed program ended by %d", status);
        if (status >> 8 == SIGTRAP) return 1;
        if (status >> 16) fail("the undisturbed program makes a process");
        signal = WSTOPSIG(status);
    }
}

// A copy of the leader, which stands where the leader stands and is a child of this process.
static pid_t copy_of(const Leader *leader, const struct user_regs_struct *regs) {
    struct user_regs_struct call = *regs;
    call.rip = leader->syscall_at;
    call.rax = SYS_clone;
    call.orig_rax = (unsigned long long)-1;
    call.rdi = CLONE_PARENT | SIGCHLD;
    call.rsi = call.rdx = call.r10 = call.r8 = 0;
    ptrace(PTRACE_SETREGS, leader->pid, NULL, &call);
    ptrace(PTRACE_SINGLESTEP, leader->pid, NULL, 0);
    int status = wait_for(leader->pid);
    unsigned long made = 0;
    if (status >> 8 != (SIGTRAP | PTRACE_EVENT_FORK << 8)) fail("the program can't be copied: %x", status);
    ptrace(PTRACE_GETEVENTMSG, leader->pid, NULL, &made);
    ptrace(PTRACE_SINGLESTEP, leader->pid, NULL, 0);
    if (wait_for(leader->pid) >> 8 != SIGTRAP) fail("the program doesn't go on behind a copy");
    struct user_regs_struct back = *regs;
    back.orig_rax = (unsigned long long)-1;
    ptrace(PTRACE_SETREGS, leader->pid, NULL, &back);
    if (!WIFSTOPPED(wait_for((pid_t)made))) fail("a copy doesn't begin");
    setpgid((pid_t)made, (pid_t)made);
    return (pid_t)made;
}

// The places of the leader's open files, which its copies share and move.
typedef struct {
    int fd[FDS_MOST];
    off_t at[FDS_MOST];
    off_t printed;
} Places;

static void keep_places(const Leader *leader, Places *places) {
    for (int fd = 0; fd < FDS_MOST; fd++) {
        places->fd[fd] = (int)syscall(SYS_pidfd_getfd, leader->pidfd, fd, 0);
        if (places->fd[fd] >= 0) places->at[fd] = lseek(places->fd[fd], 0, SEEK_CUR);
    }
    places->printed = lseek(places->fd[1], 0, SEEK_END);
    lseek(places->fd[1], places->at[1], SEEK_SET);
}

static void put_back(const Leader *leader, Places *places) {
    if (ftruncate(leader->out, places->printed)) fail("the output can't be cut");
    for (int fd = 0; fd < FDS_MOST; fd++) {
        if (places->fd[fd] < 0) continue;
        if (places->at[fd] >= 0) lseek(places->fd[fd], places->at[fd], SEEK_SET);
        close(places->fd[fd]);
    }
}

// ---- a copy

// Flips the bit, and writes PLACE BIT.
static void flip_it(const Leader *leader, pid_t copy, const Flip *flip, struct user_regs_struct regs, char *told, size_t most) {
    regs.orig_rax = (unsigned long long)-1;
    if (flip->kind == REGISTER) {
        size_t which = below(sizeof REGISTERS / sizeof *REGISTERS, flip->place);
        int bit = (int)below(64, flip->bit);
        *(unsigned long long *)((char *)&regs + REGISTERS[which].at) ^= 1ull << bit;
        snprintf(told, most, "%s %d", REGISTERS[which].name, bit);
    } else if (flip->kind == FLAGS) {
        size_t which = below(sizeof FLAG_BITS / sizeof *FLAG_BITS, flip->place);
        regs.eflags ^= 1ull << FLAG_BITS[which].bit;
        snprintf(told, most, "%s %d", FLAG_BITS[which].name, FLAG_BITS[which].bit);
    } else if (flip->kind == MEMORY) {
        static Touched all;
        find_touched(&all, leader, &regs);
        uint64_t bytes = 0;
        for (int i = 0; i < all.count; i++) bytes += all.region[i].to - all.region[i].from;
        uint64_t left = below(bytes, flip->place);
        const Region *region = all.region;
        while (left >= region->to - region->from) left -= region->to - region->from, region++;
        uint64_t at = region->from + left, word_at = at & ~7ull;
        int bit = (int)below(8, flip->bit);
        long word = ptrace(PTRACE_PEEKDATA, copy, word_at, NULL);
        if (ptrace(PTRACE_POKEDATA, copy, word_at, word ^ (long)(1ull << ((at & 7) * 8 + (uint64_t)bit)))) fail("a byte can't be written");
        snprintf(told, most, "%s:%lx/%lu %d", region->name, (unsigned long)at, (unsigned long)bytes, bit);
    } else {
        snprintf(told, most, "- 0");
    }
    ptrace(PTRACE_SETREGS, copy, NULL, &regs);
}

static double seconds(clockid_t clock) {
    struct timespec now;
    return clock_gettime(clock, &now) ? 0 : (double)now.tv_sec + (double)now.tv_nsec / 1e9;
}

static int is_asleep(pid_t pid) {
    char path[64], text[512] = "";
    snprintf(path, sizeof path, "/proc/%d/stat", pid);
    int file = open(path, O_RDONLY | O_CLOEXEC);
    if (file < 0) return 0;
    ssize_t count = read(file, text, sizeof text - 1);
    close(file);
    const char *state = count > 0 ? strrchr(text, ')') : NULL;
    return state && strchr("STtD", state[2]) != NULL;
}

// Lets a copy go on to its end, and answers its status as `waitpid` gives it, or -1 where it hangs. What it makes is ended at once.
static int ended(pid_t copy, const sigset_t *child) {
    clockid_t clock;
    int has_clock = !clock_getcpuclockid(copy, &clock);
    double awake = seconds(CLOCK_MONOTONIC);
    ptrace(PTRACE_CONT, copy, NULL, 0);
    for (;;) {
        int status;
        pid_t who = waitpid(copy, &status, WNOHANG | __WALL);
        if (who == copy && !WIFSTOPPED(status)) return status;
        if (who == copy) {
            unsigned long made;
            int event = status >> 16, signal = event ? 0 : WSTOPSIG(status);
            if (event && !ptrace(PTRACE_GETEVENTMSG, copy, NULL, &made)) {
                kill((pid_t)made, SIGKILL);
                waitpid((pid_t)made, &status, __WALL);
            }
            ptrace(PTRACE_CONT, copy, NULL, signal);
            continue;
        }
        if (who < 0) fail("a copy was lost");
        double now = seconds(CLOCK_MONOTONIC);
        if (!is_asleep(copy)) awake = now;
        if ((has_clock && seconds(clock) > CPU_MOST) || now - awake > ASLEEP_MOST) {
            kill(copy, SIGKILL);
            waitpid(copy, &status, __WALL);
            return -1;
        }
        struct timespec wait = {0, 20000000};
        sigtimedwait(child, NULL, &wait);
    }
}

// ---- what came

typedef struct {
    char *text;
    size_t length;
} Text;

static int is_beginning(Text a, Text of) { return a.length <= of.length && !memcmp(a.text, of.text, a.length); }

static int begins(const char *text, size_t length, const char *with) { return length > strlen(with) && !memcmp(text, with, strlen(with)); }

// The number of bytes of the whole lines with which both texts begin.
static size_t common_lines(Text a, Text b) {
    size_t same = 0;
    while (same < a.length && same < b.length && a.text[same] == b.text[same]) same++;
    while (same > 0 && b.text[same - 1] != '\n') same--;
    return same;
}

// Whether what stands behind the right lines is the one line, or its beginning, by which a run says why it ends: no row.
static int says_why(Text told, size_t at) {
    static const char *const words[] = {"stop ", "refused ", "parted ", "differ "};
    const char *rest = told.text + at, *line_end = memchr(rest, '\n', told.length - at);
    if (line_end && line_end != told.text + told.length - 1) return 0;
    for (size_t i = 0; i < sizeof words / sizeof *words; i++)
        if (begins(rest, told.length - at, words[i])) return 1;
    return 0;
}

// `wrong`: something was printed that the right text doesn't begin with, other than the line that says why the run ended; or the status is 0, and something is
// missing.
static const char *sorted(Text told, Text right, int status) {
    int beginning = is_beginning(told, right);
    int code = status >= 0 && WIFEXITED(status) ? WEXITSTATUS(status) : -1;
    if (code == 0) return beginning && told.length == right.length ? "same" : "wrong";
    if (!beginning && !says_why(told, common_lines(told, right))) return "wrong";
    if (status < 0) return "hung";
    if (code < 0) return "signal";
    return code == 3 ? "refused" : code == 2 ? "stopped" : "status";
}

static void print_line(const char *name, Text text, size_t at) {
    printf(" %s ", name);
    if (at >= text.length) putchar('-');
    for (size_t i = at; i < text.length && text.text[i] != '\n' && i < at + 160; i++)
        putchar(text.text[i] > ' ' && text.text[i] < 127 ? text.text[i] : '~');
}

static int try_flip(const Leader *leader, const Flip *flip, Text right, const sigset_t *child) {
    struct user_regs_struct regs;
    ptrace(PTRACE_GETREGS, leader->pid, NULL, &regs);
    regs.eflags &= ~TRAP_FLAG; // behind a POPF it stands there, which is the stepping's doing
    Object object = {.address = regs.rip};
    each_mapping(leader->pid, find_object, &object);
    Places places;
    keep_places(leader, &places);
    static char buffer[TEXT_MOST];
    Text told = {buffer, 0};
    ssize_t before = pread(leader->out, buffer, sizeof buffer, 0);
    long lines = 0;
    for (ssize_t i = 0; i < before; i++) lines += buffer[i] == '\n';
    char place[160];
    pid_t copy = copy_of(leader, &regs);
    flip_it(leader, copy, flip, regs, place, sizeof place);
    int status = ended(copy, child);
    ssize_t count = pread(leader->out, buffer, sizeof buffer, 0);
    told.length = count > 0 ? (size_t)count : 0;
    put_back(leader, &places);
    const char *outcome = sorted(told, right, status);
    int code = status < 0 ? -1 : WIFEXITED(status) ? WEXITSTATUS(status) : 1000 + WTERMSIG(status);
    printf("%s %ld %lu %s+%lx %ld %s %s %d", KINDS[flip->kind], flip->number, (unsigned long)flip->moment, object.name,
           (unsigned long)(regs.rip - object.base), lines, place, outcome, code);
    if (!strcmp(outcome, "wrong")) {
        size_t at = common_lines(told, right);
        print_line("got", told, at);
        print_line("want", right, at);
    }
    putchar('\n');
    return !strcmp(outcome, "same");
}

// ---- the way of the leader

static int by_number(const void *a, const void *b) {
    uint64_t x = *(const uint64_t *)a, y = *(const uint64_t *)b;
    return x < y ? -1 : x > y;
}

static Trace read_trace(const char *name) {
    FILE *file = fopen(name, "r");
    if (!file || fseek(file, 0, SEEK_END)) fail("%s can't be read", name);
    Trace trace = {.length = (size_t)ftell(file) / sizeof(uint64_t)};
    rewind(file);
    trace.address = malloc(trace.length * sizeof(uint64_t));
    uint64_t *each = malloc(trace.length * sizeof(uint64_t));
    trace.id = malloc(trace.length * sizeof(uint32_t));
    trace.seen = calloc(trace.length, sizeof(uint32_t));
    if (fread(trace.address, sizeof(uint64_t), trace.length, file) != trace.length) fail("%s can't be read", name);
    fclose(file);
    trace.from = malloc(trace.length * sizeof(size_t));
    for (size_t i = 0; i < trace.length; i++)
        if (i == 0 || trace.address[i] != trace.address[i - 1]) trace.from[trace.instructions++] = i;
    memcpy(each, trace.address, trace.length * sizeof(uint64_t));
    qsort(each, trace.length, sizeof(uint64_t), by_number);
    size_t count = 0;
    for (size_t i = 0; i < trace.length; i++)
        if (count == 0 || each[count - 1] != each[i]) each[count++] = each[i];
    for (size_t i = 0; i < trace.length; i++) {
        const uint64_t *found = bsearch(&trace.address[i], each, count, sizeof(uint64_t), by_number);
        trace.id[i] = (uint32_t)(found - each);
    }
    free(each);
    return trace;
}

// The last moment up to `to` whose address comes there for the first time from `at` on: a breakpoint leads there.
static size_t landmark(Trace *trace, size_t at, size_t to) {
    size_t last = at;
    uint32_t look = ++trace->looks;
    for (size_t i = at; i <= to && i < at + LOOK_MOST; i++) {
        if (trace->seen[trace->id[i]] != look) last = i;
        trace->seen[trace->id[i]] = look;
    }
    return last;
}

static void run_to(const Leader *leader, uint64_t address) {
    long word = ptrace(PTRACE_PEEKTEXT, leader->pid, address, NULL);
    ptrace(PTRACE_POKETEXT, leader->pid, address, (word & ~0xffl) | 0xcc);
    ptrace(PTRACE_CONT, leader->pid, NULL, 0);
    if (wait_for(leader->pid) >> 8 != SIGTRAP) fail("a breakpoint isn't reached");
    ptrace(PTRACE_POKETEXT, leader->pid, address, word);
    ptrace(PTRACE_POKEUSER, leader->pid, offsetof(struct user_regs_struct, rip), address);
}

static uint64_t address_of(const Leader *leader) {
    return (uint64_t)ptrace(PTRACE_PEEKUSER, leader->pid, offsetof(struct user_regs_struct, rip), NULL);
}

// Brings the leader from one moment to another.
static void bring(const Leader *leader, Trace *trace, size_t at, size_t to) {
    while (at < to) {
        size_t next = landmark(trace, at, to);
        if (next < at + STEPS_MOST) {
            step(leader);
            at++;
        } else {
            run_to(leader, trace->address[next]);
            at = next;
        }
    }
    if (address_of(leader) != trace->address[to]) fail("the undisturbed program took another way");
}

static void check_end(const Leader *leader, Text right) {
    static char buffer[TEXT_MOST];
    ssize_t count = pread(leader->out, buffer, sizeof buffer, 0);
    Text told = {buffer, count > 0 ? (size_t)count : 0};
    if (told.length != right.length || !is_beginning(told, right)) fail("the undisturbed program prints something else");
}

// ---- the trace

// The program lists its own addresses: it is carried out with the trap flag set, and after each instruction a handler of SIGTRAP, which is put into it, appends
// the address of the next one to a list that both share. This takes a third of the time of single steps from outside. Behind a system call the trap comes an
// instruction late: the address of that one is put in between. The list begins with its number of addresses and the last of them. The first instructions are
// stepped, since libraries look there at what the process has in its memory.
enum { LIST_MOST = 1 << 26, LIST_HEAD = 2, STEPPED = 100000 };
static const unsigned long CODE_AT = 0x10000000, LIST_AT = 0x20000000; // where the system puts nothing
extern const unsigned char handler_code[], handler_restorer[], handler_end[];
__asm__(".text\n"
        "handler_code: mov 168(%rdx), %rax\n" // the address in the context that the handler is given
        "movabs $0x20000000, %rsi\n mov (%rsi), %rdi\n mov 8(%rsi), %rcx\n"
        "cmpw $0x050f, (%rcx)\n jne 1f\n add $2, %rcx\n mov %rcx, 16(%rsi, %rdi, 8)\n inc %rdi\n"
        "1: mov %rax, 16(%rsi, %rdi, 8)\n inc %rdi\n mov %rdi, (%rsi)\n mov %rax, 8(%rsi)\n ret\n"
        "handler_restorer: mov $15, %eax\n syscall\n"
        "handler_end:\n");

// Has the leader make a system call.
static long called(const Leader *leader, long number, const unsigned long *words) {
    struct user_regs_struct before, call;
    ptrace(PTRACE_GETREGS, leader->pid, NULL, &before);
    call = before;
    call.rip = leader->syscall_at;
    call.rax = (unsigned long)number;
    call.rdi = words[0], call.rsi = words[1], call.rdx = words[2], call.r10 = words[3], call.r8 = words[4], call.r9 = words[5];
    ptrace(PTRACE_SETREGS, leader->pid, NULL, &call);
    step(leader);
    ptrace(PTRACE_GETREGS, leader->pid, NULL, &call);
    ptrace(PTRACE_SETREGS, leader->pid, NULL, &before);
    return (long)call.rax;
}

static void put_into(const Leader *leader, unsigned long at, const void *bytes, size_t count) {
    for (size_t i = 0; i < count; i += 8) {
        long word = 0;
        memcpy(&word, (const char *)bytes + i, count - i < 8 ? count - i : 8);
        if (ptrace(PTRACE_POKEDATA, leader->pid, at + i, word)) fail("the handler can't be put into the program");
    }
}

// Puts the handler and the list into the leader.
static void put_handler(const Leader *leader, size_t bytes) {
    unsigned long code[] = {CODE_AT, PAGE, PROT_READ | PROT_EXEC, MAP_PRIVATE | MAP_ANONYMOUS | MAP_FIXED_NOREPLACE, (unsigned long)-1, 0};
    unsigned long list[] = {LIST_AT, bytes, PROT_READ | PROT_WRITE, MAP_SHARED | MAP_FIXED_NOREPLACE, LIST_FD, 0};
    unsigned long restorer = CODE_AT + (unsigned long)(handler_restorer - handler_code);
    unsigned long action[] = {CODE_AT, SA_SIGINFO | SA_NODEFER | 0x04000000, restorer, 0}; // the third flag: it has a restorer
    unsigned long action_at = CODE_AT + PAGE / 2;
    unsigned long handled[] = {SIGTRAP, action_at, 0, 8, 0, 0}, closed[] = {LIST_FD, 0, 0, 0, 0, 0};
    if (called(leader, SYS_mmap, code) != (long)CODE_AT || called(leader, SYS_mmap, list) != (long)LIST_AT) fail("the list can't be shared");
    put_into(leader, CODE_AT, handler_code, (size_t)(handler_end - handler_code));
    put_into(leader, action_at, action, sizeof action);
    if (called(leader, SYS_rt_sigaction, handled) || called(leader, SYS_close, closed)) fail("the handler can't be named");
}

static void write_trace(char **words, const char *name, Text right) {
    size_t bytes = (LIST_MOST + LIST_HEAD) * sizeof(uint64_t);
    int shared = memfd_create("list", 0);
    if (ftruncate(shared, (off_t)bytes)) fail("there is no memory for the list");
    uint64_t *list = mmap(NULL, bytes, PROT_READ | PROT_WRITE, MAP_SHARED, shared, 0);
    Leader leader = start(words, shared);
    int goes_on = 1;
    for (; goes_on && list[0] < STEPPED; goes_on = step(&leader)) list[LIST_HEAD + list[0]++] = address_of(&leader);
    if (goes_on) {
        put_handler(&leader, bytes);
        struct user_regs_struct regs;
        ptrace(PTRACE_GETREGS, leader.pid, NULL, &regs);
        list[1] = list[LIST_HEAD + list[0]++] = regs.rip;
        regs.eflags |= TRAP_FLAG;
        ptrace(PTRACE_SETREGS, leader.pid, NULL, &regs);
        ptrace(PTRACE_DETACH, leader.pid, NULL, 0);
        int status = wait_for(leader.pid);
        if (!WIFEXITED(status) || WEXITSTATUS(status)) fail("the undisturbed program ended by %d", status);
    }
    check_end(&leader, right);
    FILE *file = fopen(name, "w");
    if (!file || fwrite(list + LIST_HEAD, sizeof(uint64_t), list[0], file) != list[0] || fclose(file)) fail("%s can't be written", name);
    printf("%lu\n", (unsigned long)list[0]);
}

// ---- the flips

// Tries the flips, which are in the order of their moments.
static void try_all(char **words, const Flip *flip, const Flip *last, Trace *trace, Text right) {
    sigset_t child;
    sigemptyset(&child);
    sigaddset(&child, SIGCHLD);
    sigprocmask(SIG_BLOCK, &child, NULL);
    Leader leader = start(words, -1);
    size_t at = 0;
    for (; flip < last; flip++) {
        bring(&leader, trace, at, flip->moment);
        at = flip->moment;
        if (!try_flip(&leader, flip, right, &child) && flip->kind == NONE) fail("a copy without a flip came to another end");
    }
    ptrace(PTRACE_CONT, leader.pid, NULL, 0);
    int status = wait_for(leader.pid);
    if (!WIFEXITED(status) || WEXITSTATUS(status)) fail("the undisturbed program ended by %d", status);
    check_end(&leader, right);
}

static Text file_text(const char *name) {
    Text text = {malloc(TEXT_MOST), 0};
    FILE *file = fopen(name, "r");
    if (!file) fail("%s can't be read", name);
    text.length = fread(text.text, 1, TEXT_MOST, file);
    fclose(file);
    return text;
}

static Kind kind_of(const char *word) {
    for (int kind = REGISTER; kind <= NONE; kind++)
        if (!strcmp(word, KINDS[kind])) return kind;
    fail("%s is no kind", word);
    return NONE;
}

int main(int count, char **words) {
    setvbuf(stdout, NULL, _IOLBF, 0);
    if (count >= 5 && !strcmp(words[1], "trace")) {
        write_trace(words + 4, words[3], file_text(words[2]));
        return 0;
    }
    if (count < 8 || strcmp(words[1], "flips")) fail("its words are in its first lines");
    Text right = file_text(words[2]);
    Trace trace = read_trace(words[3]);
    uint64_t seed = strtoull(words[4], NULL, 10);
    size_t done = strtoull(words[5], NULL, 10), all = 0;
    Flip *flips = NULL;
    int at = 6;
    for (; at + 2 < count && strcmp(words[at], "--"); at += 3) {
        Kind kind = kind_of(words[at]);
        long from = atol(words[at + 1]), more = atol(words[at + 2]);
        flips = realloc(flips, (all + (size_t)more) * sizeof *flips);
        for (long i = from; i < from + more; i++) flips[all++] = drawn(seed, kind, i, &trace);
    }
    if (at + 1 >= count || strcmp(words[at], "--")) fail("-- and the program are lacking");
    if (done > all) fail("more flips are done than there are");
    if (all) qsort(flips, all, sizeof *flips, by_moment);
    try_all(words + at + 1, flips + done, flips + all, &trace, right);
    return 0;
}
