"""Servers that scripts compare with: each keeps its data in a folder that it is given, and listens on a socket there and on no port."""
import glob
import os
import pwd
import shutil
import subprocess
import time


class Server:
    """A server that runs as a user of its own where the script runs as root."""

    user = ""

    def __init__(self, folder):
        self.folder, self.data = folder, os.path.join(folder, "data")
        os.makedirs(folder, exist_ok=True)
        if os.getuid() == 0:
            owner = pwd.getpwnam(self.user)
            os.chown(folder, owner.pw_uid, owner.pw_gid)

    def words(self, *command):
        return ["runuser", "-u", self.user, "--", *command] if os.getuid() == 0 else list(command)

    def do(self, *command):
        subprocess.run(self.words(*command), cwd=self.folder, stdin=subprocess.DEVNULL, stdout=subprocess.DEVNULL, check=True)

    def said(self, client, text):
        """What a client writes of such statements, its messages among it."""
        ran = subprocess.run(client, input=text.encode(), stdout=subprocess.PIPE, stderr=subprocess.STDOUT, check=False)
        return ran.stdout.decode()


class PostgreSql(Server):
    user = "postgres"

    @staticmethod
    def bin():
        """The folder of the newest server that is there, or nothing."""
        found = sorted(glob.glob("/usr/lib/postgresql/*/bin/initdb")) or [shutil.which("initdb") or ""]
        return os.path.dirname(found[-1])

    @classmethod
    def is_there(cls):
        return bool(cls.bin())

    def __init__(self, folder):
        super().__init__(folder)
        self.do(f"{self.bin()}/initdb", "-D", self.data, "-A", "trust", "-E", "UTF8", "--locale=C", "-U", "peer", "--no-sync")
        self.do(f"{self.bin()}/pg_ctl", "-D", self.data, "-w", "-o", f"-k {folder} -c listen_addresses= -c fsync=off -c client_min_messages=error", "start")

    def stop(self):
        self.do(f"{self.bin()}/pg_ctl", "-D", self.data, "-m", "immediate", "stop")

    def says(self, text):
        return self.said([f"{self.bin()}/psql", "-h", self.folder, "-U", "peer", "-d", "postgres", "-q", "-X", "-A", "-t", "-f", "-"], text)


class MariaDb(Server):
    user = "mysql"

    @staticmethod
    def is_there():
        return bool(shutil.which("mariadbd"))

    def __init__(self, folder):
        super().__init__(folder)
        self.socket, account = os.path.join(folder, "socket"), ["--user=mysql"] if os.getuid() == 0 else []
        self.do("mariadb-install-db", "--no-defaults", f"--datadir={self.data}", "--auth-root-authentication-method=normal", "--skip-test-db")
        options = [f"--datadir={self.data}", f"--socket={self.socket}", f"--pid-file={folder}/pid", "--skip-networking", "--skip-grant-tables"]
        options += ["--character-set-server=utf8mb4", "--skip-log-error", *account]
        self.server = subprocess.Popen(["mariadbd", "--no-defaults", *options], stdin=subprocess.DEVNULL, stdout=subprocess.DEVNULL, stderr=subprocess.DEVNULL)
        for _ in range(300):
            if os.path.exists(self.socket) and not self.says("SELECT 1").startswith("ERROR"):
                return
            time.sleep(0.1)
        raise RuntimeError("the server doesn't begin")

    def stop(self):
        self.server.terminate()
        self.server.wait()

    def says(self, text):
        client = ["mariadb", "--no-defaults", "-S", self.socket, "--default-character-set=utf8mb4", "-N", "-B", "-r"]
        return self.said(client, f"CREATE DATABASE IF NOT EXISTS peer CHARACTER SET utf8mb4; USE peer;\n{text}")


class Sqlite(Server):
    """No server, but a file that its shell reads."""

    @staticmethod
    def is_there():
        return bool(shutil.which("sqlite3"))

    def __init__(self, folder):
        self.folder = folder
        os.makedirs(folder)

    def stop(self):
        pass

    def says(self, text):
        return self.said(["sqlite3", "-batch", os.path.join(self.folder, "base")], text)
