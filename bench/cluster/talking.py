"""Clusters whose processes talk with their server for ever: talking(clients, each, budget, cache)."""


def talking(clients, each, budget, cache=64, servers=1):
    """So many processes on each client, each of which opens, writes, seeks, reads and closes a file of its own."""
    names = [(f"c{k}", None) for k in range(1, clients + 1)] + [(f"s{k}", "/" if k == 1 else f"/d{k}") for k in range(1, servers + 1)]
    kernels = "".join(f'[[kernel]]\nname = "{name}"\n' + (f'serves = ["{path}"]\n' if path else "") for name, path in names)
    programs = starts = ""
    for number in range(1, clients * each + 1):
        at = (number - 1) % servers + 1
        path = f"/f{number}" if at == 1 else f"/d{at}/f{number}"
        body = f"sys open 0 {len(path)} 7\nsys write 0 16 100\nsys seek 0 0\nsys read 0 200 100\nsys close 0\njmp again\n"
        programs += f"[[program]]\nname = \"p{number}\"\ntext = '''\npages 2\ntext 0 \"{path}\"\nagain:\n{body}'''\n"
        starts += f'[[start]]\nhost = "c{(number - 1) % clients + 1}"\nprogram = "p{number}"\n'
    return f"version = 1\nbudget = {budget}\ncache = {cache}\n{kernels}{programs}{starts}"
