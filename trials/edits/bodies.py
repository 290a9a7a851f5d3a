"""Mutants of the body store, each with the test that has to fail by it (`desk.py`).

A row has the module of `desk/vaultdesk/bodies`, a text that is in it, the text in its place, and the test.
"""

ADDING, DAMAGES, DURABLE = "test_bodies.Adding.", "test_bodies.Damages.", "test_bodies.Durable."
STOPS, ERASING, LOOKING = "test_bodies.Stops.", "test_bodies.Erasing.", "test_bodies.Looking."
AT_ONCE, LARGE, FULL = "test_bodies.AtOnce.", "test_bodies.Large.", "test_bodies.Full."
GATEWAY, STAND_IN = "test_bodies_s3.InGateway.", "test_bodies_s3.InStandIn."
HUNDREDS = DAMAGES + "test_each_of_hundreds_is_found_by_each_who_reads"
ORDER = DURABLE + "test_what_is_erased_is_out_of_its_place_then_zeros_then_noted_then_gone"
RENAMED = "                    os.rename(received.name, received.body.digest, src_dir_fd=incoming, dst_dir_fd=place)\n"
COPIED = (
    "                    with files.opened(received.name, files.READ, incoming) as read:\n"
    "                        with files.opened(received.body.digest, files.NEW, place) as new:\n"
    "                            while piece := os.read(read, 500_000):\n"
    "                                files.write(new, piece)\n"
    "                    os.unlink(received.name, dir_fd=incoming)\n"
)
SET_ASIDE = "os.rename(it.digest, store.aside_name(it), src_dir_fd=place, dst_dir_fd=aside)"
COPY = "            descriptor = os.open(new, os.O_WRONLY | os.O_CREAT | os.O_EXCL | os.O_NOFOLLOW, 0o600)\n"
DROPPED = "        for it in done:\n            files.drop(it, aside)\n"
NOTED = "        records.append(self.erased, [Erased(moments.now(), it.digest, it.size, text) for it, text in lines])\n"
SOME_HELD = (
    "    named = set()\n    try:\n        for it in held():\n            named.add(it.digest)\n"
    "    except DeskError:\n        pass\n"
)

EDITS = [
    # into its place
    ("store", "os.fchmod(descriptor, 0o400)", "os.fchmod(descriptor, 0o440)",
     ADDING + "test_it_is_in_its_place_with_its_mode_and_nothing_is_left_incoming"),
    ("files", "os.mkdir(name, 0o700, dir_fd=at)", "os.mkdir(name, 0o755, dir_fd=at)",
     ADDING + "test_it_is_in_its_place_with_its_mode_and_nothing_is_left_incoming"),
    ("in_folder", "if was == \"there\":", "if was == \"\":", ADDING + "test_one_that_is_there_isnt_written_again"),
    ("in_folder", "        if size != body.size:\n", "        if size is None:\n",
     ADDING + "test_it_comes_in_the_place_of_what_has_another_size_or_is_a_link"),
    ("files", "dir_fd=at, follow_symlinks=False)\n    return found.st_size", "dir_fd=at)\n    return found.st_size",
     ADDING + "test_it_comes_in_the_place_of_what_has_another_size_or_is_a_link"),
    ("in_folder", "raise _altered(received.body, why) from error", "return Added(received.body, why)",
     ADDING + "test_a_folder_in_its_place_is_reported_and_stays"),
    ("store", "if wanted and body != wanted:", "if wanted and body.size != wanted.size:",
     ADDING + "test_what_isnt_wanted_or_is_too_long_or_cant_be_read_leaves_nothing"),
    ("store", "if size > MOST:", "if size >= MOST:",
     ADDING + "test_what_isnt_wanted_or_is_too_long_or_cant_be_read_leaves_nothing"),
    ("store", "os.unlink(name, dir_fd=folder)", "pass",
     ADDING + "test_what_isnt_wanted_or_is_too_long_or_cant_be_read_leaves_nothing"),
    ("store", "                    self.drop(it)\n", "                    pass\n", ADDING + "test_a_folder_in_its_place_is_reported_and_stays"),
    ("store", "                    self.drop(it)\n", "                    pass\n",
     ADDING + "test_what_isnt_wanted_or_is_too_long_or_cant_be_read_leaves_nothing"),
    ("in_folder", "        self._must_share()\n", "", ADDING + "test_nobody_settles_without_the_lock"),
    ("store", "        if missing:\n", "        if missing == folder:\n", ADDING + "test_a_store_that_isnt_there_isnt_made"),
    ("store", "<= {INCOMING, ASIDE, *OF_DISKS}:", "<= {INCOMING, ASIDE}:", ADDING + "test_a_store_that_isnt_there_isnt_made"),
    ("body", "DIGEST.fullmatch(self.digest)", "DIGEST.match(self.digest)", ADDING + "test_a_name_that_is_no_digest_names_no_body"),
    ("body", "vault.name.removesuffix(\".vault\")", "vault.name", ADDING + "test_the_places_are_beside_the_vault"),
    # what is damaged
    ("reader", "if self._hash.hexdigest() != self.body.digest:", "if False:", HUNDREDS),
    ("files", "READ = os.O_RDONLY | os.O_NOFOLLOW |", "READ = os.O_RDONLY |", HUNDREDS),
    ("files", "FOLDER = os.O_RDONLY | os.O_DIRECTORY | os.O_NOFOLLOW", "FOLDER = os.O_RDONLY | os.O_DIRECTORY", HUNDREDS),
    ("in_folder", " and found.st_size == body.size:", ":", HUNDREDS),
    ("in_folder", "        is_body = DIGEST.fullmatch(digest) and name == _path_of(digest)", "        is_body = DIGEST.fullmatch(digest)", HUNDREDS),
    ("reader", "            os.rename(new, path)\n        except BaseException:\n",
     "        except BaseException:\n            os.rename(new, path)\n",
     HUNDREDS),
    ("looks", "        whole = {it.body for it in there}\n",
     "        whole = {it for it in named for one in there if it.digest == one.digest}\n",
     HUNDREDS),
    ("looks", "except (Missing, Altered) as wrong:\n            found.note(it, wrong)\n\n\ndef check",
     "except Missing as wrong:\n            found.note(it, wrong)\n\n\ndef check",
     HUNDREDS),
    ("reader", "        if self._count == self.body.size:\n            self._end()\n        buffer[", "        buffer[",
     DAMAGES + "test_whoever_reads_just_the_size_has_no_whole_body"),
    ("reader", "        if self._why:\n", "        if False:\n", DAMAGES + "test_whoever_reads_just_the_size_has_no_whole_body"),
    ("reader", "if not body.size:", "if False:", DAMAGES + "test_an_empty_body_is_looked_at_as_it_is_opened"),
    ("reader", "if self._read(1):", "if False:", DAMAGES + "test_an_empty_body_is_looked_at_as_it_is_opened"),
    ("in_folder", "        except OSError as error:\n            raise _altered(body, f\"it can't",
     "        except ArithmeticError as error:\n            raise _altered(body, f\"it can't",
     DAMAGES + "test_what_the_disk_doesnt_give_is_altered_and_the_look_goes_on"),
    ("reader", "os.O_NOFOLLOW, 0o600)", "os.O_NOFOLLOW, 0o644)", DAMAGES + "test_a_whole_body_is_copied_over_what_was_there"),
    # on the disk
    ("in_folder", "            self._sync(incoming, [partial(files.sync, *it) for it in names])\n", "",
     DURABLE + "test_what_is_added_is_on_the_disk_with_all_folders_above_it"),
    ("in_folder", "                    os.fsync(one)\n", "                    pass\n",
     DURABLE + "test_what_is_added_is_on_the_disk_with_all_folders_above_it"),
    ("in_folder", "                    os.fsync(top)\n", "                    pass\n",
     DURABLE + "test_what_is_added_is_on_the_disk_with_all_folders_above_it"),
    ("in_folder", "            os.fsync(place)\n", "", DURABLE + "test_what_is_added_is_on_the_disk_with_all_folders_above_it"),
    ("in_folder", "if len(each) > FEW and", "if False and", DURABLE + "test_many_take_two_syncs"),
    ("in_folder", "partial(self._sync_place, it.body) for it in received]",
     "partial(self._sync_place, it.body) for it in added if it.was == \"new\"]",
     DURABLE + "test_one_that_another_process_put_there_a_moment_ago_is_on_the_disk_too"),
    ("in_folder", "            self._sync(aside, [partial(self._sync_place, it) for it in doomed])\n", "", ORDER),
    ("in_folder", "            os.fsync(aside)\n", "", DURABLE + "test_a_few_erased_are_in_that_order_too"),
    ("files", "                left -= os.write(descriptor, memoryview(ZEROS)[:left])\n", "                left = 0\n", ORDER),
    ("files", "            os.fsync(descriptor)\n\n\ndef wipe", "\n\ndef wipe", ORDER),
    ("store", NOTED + DROPPED, DROPPED + NOTED, ORDER),
    ("store", "versions(it.digest)", "versions(it.digest)[:1]", ORDER),
    # stops
    ("in_folder", RENAMED, COPIED, STOPS + "test_of_adding"),
    ("in_folder", RENAMED, COPIED, STOPS + "test_of_adding_many"),
    ("in_folder", SET_ASIDE, "os.fchmod(os.open(it.digest, os.O_RDONLY, dir_fd=place), 0o600) or files.wipe(it.digest, place) or " + SET_ASIDE,
     STOPS + "test_of_a_sweep"),
    ("store", NOTED + DROPPED, DROPPED + NOTED, STOPS + "test_of_a_sweep"),
    ("reader", COPY, COPY + "            os.rename(new, path)\n            new = path\n", STOPS + "test_of_a_copy"),
    # what is erased
    ("looks", "    yield from (it for it in there if it.digest not in named)", "    yield from there",
     ERASING + "test_what_is_held_or_new_incoming_or_no_body_stays"),
    ("in_folder", "else [two]:\n", "else []:\n", ERASING + "test_what_is_held_or_new_incoming_or_no_body_stays"),
    ("store", "< moment\n", "> 0\n", ERASING + "test_what_is_held_or_new_incoming_or_no_body_stays"),
    ("store", "DAYS = 7", "DAYS = 10", ERASING + "test_what_is_incoming_for_more_than_seven_days_goes"),
    ("files", "return max([found.st_mtime, *", "return min([found.st_mtime, *", ERASING + "test_what_is_incoming_for_more_than_seven_days_goes"),
    ("files", "                wipe(it, below)\n", "                pass\n", ERASING + "test_what_is_incoming_for_more_than_seven_days_goes"),
    ("looks", "    if there and named and not any", "    if False and not any", ERASING + "test_a_store_of_another_vault_isnt_swept"),
    ("looks", "    named = {it.digest for it in held()}\n    there = [it.body", SOME_HELD + "    there = [it.body",
     ERASING + "test_a_ledger_that_fails_half_way_has_nothing_swept"),
    ("store", "                failed.append(error)\n",
     "                raise error\n",
     ERASING + "test_one_that_cant_be_wiped_doesnt_keep_the_others"),
    ("store", "                done.append(it)\n            except OSError as error:\n",
     "            except OSError as error:\n                done.append(it)\n",
     ERASING + "test_one_that_cant_be_wiped_doesnt_keep_the_others"),
    # looks
    ("looks", "(self.missing if isinstance(wrong, Missing) else self.altered)",
     "self.missing",
     LOOKING + "test_each_look_is_a_line_and_the_last_is_read"),
    ("records", ".split(\"\\n\")[:-1]", ".split(\"\\n\")", LOOKING + "test_each_look_is_a_line_and_the_last_is_read"),
    ("records", "csv.reader(reversed(lines))", "csv.reader(lines)", LOOKING + "test_each_look_is_a_line_and_the_last_is_read"),
    ("looks", "% self.of == self.number - 1", "% self.of <= self.number - 1", LOOKING + "test_slices_have_each_body_once"),
    ("looks", "1 <= int(number)", "0 <= int(number)", LOOKING + "test_a_slice_is_written_as_two_numbers"),
    ("looks", "        found.still(held())\n", "        pass\n", LOOKING + "test_what_was_removed_and_swept_meanwhile_isnt_missing"),
    ("looks", "        digests = {it.digest for it in held()}  #", "        pass  #", LOOKING + "test_what_is_named_meanwhile_isnt_spare"),
    ("records", "            fcntl.flock(file, fcntl.LOCK_EX)\n", "", LOOKING + "test_lines_of_many_at_once_come_one_after_another"),
    # several at once
    ("store", "with self.lock.alone():", "with contextlib.nullcontext():", AT_ONCE + "test_a_sweep_waits_for_the_line_and_asks_the_ledger_after_it"),
    ("store", "with self.lock.alone():", "with contextlib.nullcontext():", AT_ONCE + "test_two_who_add_and_one_who_sweeps"),
    ("lock", "with flocked(self._next, how):", "with contextlib.nullcontext():", AT_ONCE + "test_who_adds_after_a_sweep_asked_waits_for_it"),
    ("lock", "            raise RuntimeError(\"this thread holds the lock of the store\")\n", "            yield\n            return\n",
     AT_ONCE + "test_a_thread_that_shares_the_lock_erases_nothing"),
    ("lock", "        if self.is_shared:\n            yield\n",
     "        if False:\n            yield\n",
     AT_ONCE + "test_a_thread_that_shares_the_lock_erases_nothing"),
    ("store", "            return Erasure(self._wipe_aside(versions), locked)\n",
     "                return Erasure(self._wipe_aside(versions), locked)\n",
     AT_ONCE + "test_wiping_keeps_nobody_waiting"),
    # large and full
    ("body", "self.size < 0", "self.size <= 0", LARGE + "test_nothing_at_all"),
    ("store", "source.read(PIECE)", "source.read(MOST)", LARGE + "test_a_stream_of_128_mebibytes"),
    ("reader", "bytearray(PIECE)", "bytearray(self.body.size)", LARGE + "test_a_stream_of_128_mebibytes"),
    ("reader", "reader.read(PIECE)", "reader.read()", LARGE + "test_a_stream_of_128_mebibytes"),
    ("files", "rest = rest[os.write(descriptor, rest):]",
     "rest = rest[os.write(descriptor, rest) * len(rest):]",
     FULL + "test_a_limit_of_a_files_size"),
    ("files", "rest = rest[os.write(descriptor, rest):]", "rest = rest[os.write(descriptor, rest) * len(rest):]", FULL + "test_a_full_disk"),
    ("reader", "                os.unlink(new)\n", "                pass\n", FULL + "test_a_full_disk"),
    # in S3
    ("in_s3", "                self._ask(\"put_object\"", "                self._ask(\"get_object\" if received.body.size == 0 else \"put_object\"",
     GATEWAY + "test_what_is_added_is_there_and_read_and_walked_over"),
    ("in_s3", "        if was == \"there\":\n            self.keep", "        if was == \"\":\n            self.keep",
     GATEWAY + "test_its_lock_is_extended_and_never_shortened"),
    ("in_s3", "            self.keep(body, received.until)\n", "            pass\n", GATEWAY + "test_its_lock_is_extended_and_never_shortened"),
    ("in_s3", "end = max(wanted, there.get(\"RetainUntilDate\", wanted))", "end = wanted", GATEWAY + "test_its_lock_is_extended_and_never_shortened"),
    ("in_s3", "if refused.code in NO_LOCK:", "if False:", GATEWAY + "test_one_that_came_without_an_end_gets_its_lock_later"),
    ("in_s3", "if there.get(\"Mode\") != \"COMPLIANCE\" or", "if", GATEWAY + "test_another_lock_becomes_compliance"),
    ("in_s3", "return self.bucket.lock and until", "return until", GATEWAY + "test_a_bucket_that_isnt_locked_locks_nothing"),
    ("in_s3", "if refused.code in GUARDED:", "if False:", GATEWAY + "test_a_sweep_takes_what_isnt_locked_and_names_what_is"),
    ("in_s3", "                    os.unlink(name, dir_fd=aside)\n        return locked", "        return locked",
     GATEWAY + "test_a_sweep_takes_what_isnt_locked_and_names_what_is"),
    ("in_s3", "            if refused.code in ABSENT:\n                return False\n            raise\n", "            return bool(refused)\n",
     GATEWAY + "test_what_a_marker_hides_is_missing_and_comes_back_whole"),
    ("in_s3", "        if found[\"ContentLength\"] != body.size:\n            raise",
     "        if False:\n            raise",
     STAND_IN + "test_each_damage_is_found"),
    ("reader", "if self._hash.hexdigest() != self.body.digest:", "if False:", STAND_IN + "test_each_damage_is_found"),
    ("in_s3", "raise DeskError(f\"S3: {error}\") from error\n\n\ndef _checksum", "raise Altered(f\"S3: {error}\") from error\n\n\ndef _checksum",
     STAND_IN + "test_an_answer_that_is_cut_is_no_damage_and_nothing_whole"),
    ("in_s3", "            if refused.code in ABSENT:\n                return False\n            raise\n", "            return False\n",
     STAND_IN + "test_a_store_that_gives_no_answer_is_an_error_and_no_line"),
    ("in_s3", "for kind in (\"Versions\", \"DeleteMarkers\")", "for kind in (\"Versions\",)", STAND_IN + "test_all_pages_and_all_versions"),
    ("in_s3", "self.bucket.client.get_paginator(call).paginate(Bucket=self.bucket.name, **given):",
     "[getattr(self.bucket.client, call)(Bucket=self.bucket.name, **given)]:",
     STAND_IN + "test_all_pages_and_all_versions"),
    ("in_s3", " and _moment(until) > dt.datetime.now(dt.timezone.utc)", "", STAND_IN + "test_an_end_that_is_over_guards_nothing"),
    ("in_s3", "                with files.opened(name, files.NEW, aside):\n                    pass\n", "                pass\n",
     STAND_IN + "test_a_stop_at_each_call_leaves_no_erased_body_without_its_record"),
    ("in_s3", "            self._look_at_left(aside)\n", "", STAND_IN + "test_what_a_stop_left_and_is_there_again_has_no_record"),
    ("in_s3", "self._ask(\"put_object\", Key=body.digest, Body=file,", "self._ask(\"put_object\", Key=body.digest, Body=file.read(),",
     "test_bodies_s3.Large.test_memory_doesnt_grow_with_a_body"),
]
