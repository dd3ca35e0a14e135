"""The page's process, as the gateway starts it."""
import pathlib
import sys

HERE = pathlib.Path(__file__).resolve().parents[1]
# the client's package lies beside this one where both are installed, in the repository in clients
CLIENT = HERE if (HERE / "estserve_client").is_dir() else HERE.parent / "clients"
sys.path[:1] = [str(HERE), str(CLIENT)]

from estserve_client.command_line import end, main  # noqa: E402

if __name__ == "__main__":
    end(main(["team", "page", *sys.argv[1:]]))
