# SPDX-License-Identifier: Apache-2.0
"""What a kubeconfig says, read by the official client, which knows its forms, exec plugins and auth providers: a program of its own, which
ends once it has said it, so that the client's models take no memory of a process that stays.

    python3 -P api/official.py KUBECONFIG CONTEXT

prints the fields of `account.Settings` as one JSON object, or as `wrong` why there are none; of the usual kubeconfig, and the current context,
where these are empty. Files that the library makes of what stands in a kubeconfig are gone with this process: so what they have is told.
"""
from __future__ import annotations

import json
import logging
import os
import signal
import sys
from typing import Any

from kubernetes import client
from kubernetes.config import kube_config


def text_of(file: str | None) -> str | None:
    """(in bytes' own numbers: comments in it may be in any encoding)"""
    if not file:
        return None
    with open(file, encoding="latin-1") as it:
        return it.read()


def said_by(kubeconfig: str, context: str) -> dict[str, Any]:
    merged = kube_config.KubeConfigMerger(kubeconfig or kube_config.KUBE_CONFIG_DEFAULT_LOCATION)
    how = {"active_context": context or None, "config_persister": merged.save_changes, "config_base_path": None}
    loader = kube_config.KubeConfigLoader(config_dict=merged.config, **how)
    it = client.Configuration()
    loader.load_and_set(it)
    # (a token that is good for minutes would be asked for twice)
    it.refresh_api_key_hook = None
    headers = {said["key"]: said["value"].strip() for said in it.auth_settings().values() if said["in"] == "header" and said["value"]}
    expiry = getattr(loader, "expiry", None)
    return {
        "host": it.host,
        "is_verified": it.verify_ssl,
        "authority": text_of(it.ssl_ca_cert),
        "certificate": text_of(it.cert_file),
        "key": text_of(it.key_file),
        "assert_hostname": it.assert_hostname,
        "tls_server_name": getattr(it, "tls_server_name", None),
        "proxy": it.proxy,
        "no_proxy": getattr(it, "no_proxy", None),
        "proxy_headers": it.proxy_headers,
        "headers": headers,
        "expires": expiry.timestamp() if expiry else None,
        "context": loader.current_context["name"],
    }


def main(kubeconfig: str, context: str) -> None:
    # (whoever has no more patience says so by it, and the files go all the same)
    signal.signal(signal.SIGTERM, lambda *_: sys.exit(1))
    logging.basicConfig(format="%(asctime)s %(message)s")
    # (what a library prints is for people)
    told = os.dup(1)
    os.dup2(2, 1)
    try:
        said = said_by(kubeconfig, context)
    except Exception as why:  # pylint: disable=broad-except
        # (of whatever kind: libraries of providers have their own)
        said = {"wrong": str(why) or type(why).__name__}
    with os.fdopen(told, "w", encoding="ascii") as out:
        json.dump(said, out)


if __name__ == "__main__":
    main(sys.argv[1], sys.argv[2])
