"""Tests that share nothing: pytest, or pytest -n 8 for eight at a time (pytest-xdist)."""
import pytest


def test_reads_what_it_wrote(secrets):
    secrets.create_secret(Name="db/app", SecretString="s3cret")
    assert secrets.get_secret_value(SecretId="db/app")["SecretString"] == "s3cret"


def test_begins_empty(secrets):
    assert secrets.list_secrets()["SecretList"] == []


def test_refuses_what_is_not_there(secrets):
    with pytest.raises(secrets.exceptions.ResourceNotFoundException):
        secrets.get_secret_value(SecretId="db/app")


@pytest.mark.parametrize("number", range(16))
def test_changes_its_own_copy(copied, number):
    assert copied.get_secret_value(SecretId="db/app")["SecretString"] == "s3cret"
    copied.put_secret_value(SecretId="db/app", SecretString=str(number))
    assert len(copied.list_secret_version_ids(SecretId="db/app")["Versions"]) == 2
