// The work of bench/peers over MPI: synchronous sends, as RCCE's are, and MPI's own barrier and allreduce.
//   mpirun -np N peers_mpi halo|small|large|ring REPEATS
#include <mpi.h>
#include <cstdlib>
#include <string>
#include <vector>

static void send(int to, std::vector<unsigned char>& bytes) {
    MPI_Ssend(bytes.data(), bytes.size(), MPI_BYTE, to, 0, MPI_COMM_WORLD);
}

static void recv(int from, std::vector<unsigned char>& bytes) {
    MPI_Recv(bytes.data(), bytes.size(), MPI_BYTE, from, 0, MPI_COMM_WORLD, MPI_STATUS_IGNORE);
}

static void exchange(int me, int nue, std::vector<unsigned char>& x, std::vector<unsigned char>& y) {
    int right = (me + 1) % nue, behind = (me + nue - 1) % nue;
    if (me % 2 == 0) { send(right, x); recv(behind, y); } else { recv(behind, y); send(right, x); }
}

int main(int count, char** args) {
    MPI_Init(&count, &args);
    int me, nue;
    MPI_Comm_rank(MPI_COMM_WORLD, &me);
    MPI_Comm_size(MPI_COMM_WORLD, &nue);
    std::string work = args[1];
    int repeats = std::atoi(args[2]);
    std::vector<unsigned char> x(work == "halo" ? 256 : work == "small" ? 8 : 65536, 1), y(x.size());
    MPI_Comm eight;
    MPI_Comm_split(MPI_COMM_WORLD, me / 8, me, &eight);
    for (int i = 0; i < repeats; i++) {
        if (work == "halo") {
            exchange(me, nue, x, y);
            long mine = me, total;
            MPI_Allreduce(&mine, &total, 1, MPI_LONG, MPI_SUM, MPI_COMM_WORLD);
            MPI_Barrier(eight);
        } else if (work == "ring") {
            exchange(me, nue, x, y);
        } else if (me == 0) {
            send(1, x);
        } else {
            recv(0, y);
        }
    }
    MPI_Finalize();
}
