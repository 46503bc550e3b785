/* A system that has the peer's calls and nothing else: small_peer.c is compiled and linked against it to see that it needs no
   other one. Nothing can be run over it. */
typedef unsigned long size_type;
struct ipc_perm { unsigned key, uid, gid, cuid, cgid; unsigned short mode; };
struct shmid_ds {
    struct ipc_perm shm_perm;
    size_type shm_segsz, shm_nattch;
    long shm_atime, shm_dtime, shm_ctime;
    int shm_cpid, shm_lpid;
};
enum { IPC_PRIVATE = 0, IPC_CREAT = 512, IPC_EXCL = 1024, IPC_RMID = 0, IPC_SET = 1, IPC_STAT = 2 };

int shmget(int key, size_type size, int flags);
void *shmat(int id, const void *address, int flags);
int shmdt(const void *address);
int shmctl(int id, int command, struct shmid_ds *segment);
int fork(void);
void exit(int status);
int wait(int *status);
int pipe(int ends[2]);
int read(int fd, void *to, int count);
int write(int fd, const void *from, int count);

void put_char(char c);
const char *error_name(void);
#define KEY_OF(s) ((s)->shm_perm.key)
#define HAS_USERS 0
#define FREE_FROM 0x10000UL
#define FREE_TO 0x40000000UL
