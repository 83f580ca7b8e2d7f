/* The queue for the model checker Spin, by tools/model.py from crates/cc_runs/specs: a label for each phase of a pass,
   and there its one atomic step. around.pml says how to set the sizes. Each interleaving of two senders and a receiver:

       spin -a -DTAKES=2 tests/model/queue.pml && gcc -O1 -DSAFETY -o pan pan.c && ./pan */
#include "around.pml"

proctype sender(byte me; byte own; bit closes; byte chain) {
  byte made, at, body, last, next, node, place, put, reads, served, tag, total;
end:
  if
  :: atomic { NEW_SEND; STORE(NODE(own, NEXT), 0); SAY("%c%d ResetNext\n"); goto ResetState }
  :: atomic { NEW_CLOSE; STORE(NODE(own, NEXT), 0); SAY("%c%d ResetNext\n"); goto ResetState }
  fi;
ResetState: atomic { STORE(NODE(own, STATE), 1); SAY("%c%d ResetState\n"); goto Exchange };
Exchange: atomic { SWAP(TAIL, own + 1); SAY("%c%d Exchange\n"); ENTERS(found - 1); put = own; own = found - 1;
  goto WriteTag };
WriteTag: atomic { STORE(NODE(own, TAG), tag); SAY("%c%d WriteRequest\n"); goto WriteBody };
WriteBody: atomic { STORE(NODE(own, BODY), body); SAY("%c%d WriteRequest\n"); tag = 0; body = 0; goto Link };
Link: atomic { STORE(NODE(own, NEXT), put + 1); SAY("%c%d Link\n"); LINKS; put = 0; goto ReadState };
ReadState: atomic { SEES(NODE(own, STATE)) != 1 -> TAKES_UP(1); LOAD(NODE(own, STATE)); SAY("%c%d ReadState\n"); if
    :: found == 0 -> at = own; served = 0; SERVES; goto ReadNext
    :: else -> goto ReadAnswer
    fi };
ReadNext: atomic { LOAD(NODE(at, NEXT)); SAY("%c%d ReadNext\n"); if
    :: found == 0 -> served = 0; goto HandOver
    :: else -> next = found - 1; goto ReadTag
    fi };
ReadAnswer: atomic { LOAD(NODE(own, RET)); SAY("%c%d ReadAnswer\n"); if
    :: (found / 16) == 1 -> RETURNS(ACCEPTED, found % 16, 0, 0, 0); goto end
    :: (found / 16) == 2 -> RETURNS(FULL, 0, 0, 0, 0); goto end
    :: (found / 16) == 3 -> RETURNS(CLOSED, 0, 0, 0, 0); goto end
    :: (found / 16) == 4 -> RETURNS(SPENT, 0, 0, 0, 0); goto end
    :: (found / 16) == 5 -> RETURNS(SHUT, found % 16, 0, 0, 0); goto end
    :: else -> RETURNS(ALREADY, found % 16, 0, 0, 0); goto end
    fi };
HandOver: atomic { STORE(NODE(at, STATE), 0); SAY("%c%d HandOver\n"); at = 0; HANDS; goto ReadAnswer };
ReadTag: atomic { LOAD(NODE(at, TAG)); SAY("%c%d ReadRequest\n"); tag = found; body = 0; goto ReadBody };
ReadBody: atomic { LOAD(NODE(at, BODY)); SAY("%c%d ReadRequest\n"); body = found; goto ReadShut };
ReadShut: atomic { LOAD(SHUT); SAY("%c%d ReadObject\n"); if
    :: found == 0 -> goto ReadCount
    :: !(found == 0) && tag == 0 -> tag = 0; body = 0; goto ReadTotal
    :: else -> DECIDES(CLOSED, 0, 0, 0, 0); tag = 0; body = 0; goto WriteAnswer_Closed
    fi };
ReadCount: atomic { LOAD(COUNT); SAY("%c%d ReadObject\n"); if
    :: tag == 0 -> total = found; tag = 0; body = 0; goto ReadLastToClose
    :: !(tag == 0) && found == LIFE -> DECIDES(SPENT, 0, 0, 0, 0); tag = 0; body = 0; goto WriteAnswer_Spent
    :: else -> place = found; goto ReadCursor
    fi };
ReadTotal: atomic { LOAD(COUNT); SAY("%c%d ReadObject\n"); DECIDES(ALREADY, found, 0, 0, 0); total = found;
  goto WriteAnswer_Already };
WriteAnswer_Closed: atomic { STORE(NODE(at, RET), 48); SAY("%c%d WriteAnswer\n"); goto MarkDone };
ReadLastToClose: atomic { LOAD(LAST); SAY("%c%d ReadObject\n"); last = found - 1; goto LinkMark };
WriteAnswer_Spent: atomic { STORE(NODE(at, RET), 64); SAY("%c%d WriteAnswer\n"); goto MarkDone };
ReadCursor: atomic { LOAD(CURSOR); SAY("%c%d ReadObject\n"); SCANS; node = found; reads = 1; goto ReadPassed };
WriteAnswer_Already: atomic { STORE(NODE(at, RET), 96 + total); SAY("%c%d WriteAnswer\n"); total = 0; goto MarkDone };
MarkDone: atomic { LOCKED(NODE(at, STATE), 2); SAY("%c%d MarkDone\n"); if
    :: (served + 1) == BOUND -> at = next; served = 0; next = 0; goto HandOver
    :: else -> at = next; served = served + 1; next = 0; goto ReadNext
    fi };
LinkMark: atomic { STORE(ITEM(last, NEXT), CAPACITY + 2); SAY("%c%d LinkLast\n"); DECIDES(SHUT, total, 0, 0, 0);
  last = 0; goto WriteLastMark };
ReadPassed: atomic { LOAD(ITEM(node, PASSED)); SAY("%c%d ReadPassed\n"); if
    :: found == GROUPS -> reads = 0; goto ResetPassed
    :: !(found == GROUPS) && reads == (CAPACITY + 1) -> DECIDES(FULL, 0, 0, 0, 0); place = 0; tag = 0; body = 0;
      node = 0; reads = 0; goto WriteAnswer_Full
    :: else -> node = (node + 1) % (CAPACITY + 1); reads = reads + 1; goto ReadPassed
    fi };
WriteLastMark: atomic { STORE(LAST, CAPACITY + 2); SAY("%c%d WriteObject\n"); goto WriteShut };
ResetPassed: atomic { STORE(ITEM(node, PASSED), 0); SAY("%c%d ResetListNode\n"); CLEARS(node); goto ResetItemNext };
WriteAnswer_Full: atomic { STORE(NODE(at, RET), 32); SAY("%c%d WriteAnswer\n"); goto MarkDone };
WriteShut: atomic { STORE(SHUT, 1); SAY("%c%d WriteObject\n"); goto WriteAnswer_Shut };
ResetItemNext: atomic { STORE(ITEM(node, NEXT), 0); SAY("%c%d ResetListNode\n"); goto WriteItemTag };
WriteAnswer_Shut: atomic { STORE(NODE(at, RET), 80 + total); SAY("%c%d WriteAnswer\n"); total = 0; goto MarkDone };
WriteItemTag: atomic { STORE(ITEM(node, TAG), tag); SAY("%c%d WriteItem\n"); goto WriteItemBody };
WriteItemBody: atomic { STORE(ITEM(node, BODY), body); SAY("%c%d WriteItem\n"); tag = 0; body = 0; goto ReadLast };
ReadLast: atomic { LOAD(LAST); SAY("%c%d ReadObject\n"); last = found - 1; goto LinkItem };
LinkItem: atomic { STORE(ITEM(last, NEXT), node + 1); SAY("%c%d LinkLast\n"); DECIDES(ACCEPTED, place, 0, 0, 0);
  last = 0; LINKED; goto WriteLast };
WriteLast: atomic { STORE(LAST, node + 1); SAY("%c%d WriteObject\n"); goto WriteCount };
WriteCount: atomic { STORE(COUNT, place + 1); SAY("%c%d WriteObject\n"); goto WriteCursor };
WriteCursor: atomic { STORE(CURSOR, (node + 1) % (CAPACITY + 1)); SAY("%c%d WriteObject\n"); node = 0;
  goto WriteAnswer_Accepted };
WriteAnswer_Accepted: atomic { STORE(NODE(at, RET), 16 + place); SAY("%c%d WriteAnswer\n"); place = 0; goto MarkDone }
}

proctype receiver(byte me; byte own; bit closes; byte chain) {
  byte made, at, body, dummy, next, node, place, put, served, tag, taken, total;
end:
  if
  :: atomic { NEW_TAKE; STORE(NODE(own, NEXT), 0); SAY("%c%d ResetNext\n"); goto ResetState }
  fi;
ResetState: atomic { STORE(NODE(own, STATE), 1); SAY("%c%d ResetState\n"); goto Exchange };
Exchange: atomic { SWAP(TAIL, own + 1); SAY("%c%d Exchange\n"); ENTERS(found - 1); put = own; own = found - 1;
  goto Link };
Link: atomic { STORE(NODE(own, NEXT), put + 1); SAY("%c%d Link\n"); LINKS; put = 0; goto ReadState };
ReadState: atomic { SEES(NODE(own, STATE)) != 1 -> TAKES_UP(1); LOAD(NODE(own, STATE)); SAY("%c%d ReadState\n"); if
    :: found == 0 -> at = own; served = 0; SERVES; goto ReadNext
    :: else -> goto ReadAnswer
    fi };
ReadNext: atomic { LOAD(NODE(at, NEXT)); SAY("%c%d ReadNext\n"); if
    :: found == 0 -> served = 0; goto HandOver
    :: else -> next = found - 1; goto ReadHead
    fi };
ReadAnswer: atomic { LOAD(NODE(own, RET)); SAY("%c%d ReadAnswer\n"); if
    :: (found / 16) == 1 -> place = found % 16; goto ReadAnswerTag
    :: (found / 16) == 2 -> RETURNS(EMPTY, 0, 0, 0, 0); goto end
    :: else -> RETURNS(ENDED, found % 16, 0, 0, 0); goto end
    fi };
HandOver: atomic { STORE(NODE(at, STATE), 0); SAY("%c%d HandOver\n"); at = 0; HANDS; goto ReadAnswer };
ReadHead: atomic { LOAD(HEAD); SAY("%c%d ReadObject\n"); dummy = found - 1; READS(dummy + 1); goto ReadTaken };
ReadAnswerTag: atomic { LOAD(NODE(own, TAG)); SAY("%c%d ReadAnswer\n"); tag = found; body = 0; goto ReadAnswerBody };
ReadTaken: atomic { LOAD(TAKEN); SAY("%c%d ReadObject\n"); taken = found; READS(dummy + 1); goto ReadDummyNext };
ReadAnswerBody: atomic { LOAD(NODE(own, BODY)); SAY("%c%d ReadAnswer\n"); RETURNS(GOT, place, tag, found, 0);
  place = 0; tag = 0; body = 0; goto end };
ReadDummyNext: atomic { LOAD(ITEM(dummy, NEXT)); SAY("%c%d ReadDummyNext\n"); if
    :: found == 0 -> DECIDES(EMPTY, 0, 0, 0, 0); dummy = 0; taken = 0; READS(0); goto WriteAnswer_Empty
    :: else -> node = found - 1; READS(node + 1); goto ReadItemTag
    fi };
WriteAnswer_Empty: atomic { STORE(NODE(at, RET), 32); SAY("%c%d WriteAnswer\n"); goto MarkDone };
ReadItemTag: atomic { LOAD(ITEM(node, TAG)); SAY("%c%d ReadItem\n"); if
    :: found == 0 -> DECIDES(ENDED, taken, 0, 0, 0); total = taken; dummy = 0; taken = 0; node = 0; READS(0);
      goto WriteAnswer_Ended
    :: else -> place = taken; tag = found; body = 0; taken = 0; READS(node + 1); goto ReadItemBody
    fi };
MarkDone: atomic { STORE(NODE(at, STATE), 2); SAY("%c%d MarkDone\n"); if
    :: (served + 1) == BOUND -> at = next; served = 0; next = 0; goto HandOver
    :: else -> at = next; served = served + 1; next = 0; goto ReadNext
    fi };
WriteAnswer_Ended: atomic { STORE(NODE(at, RET), 48 + total); SAY("%c%d WriteAnswer\n"); total = 0; goto MarkDone };
ReadItemBody: atomic { LOAD(ITEM(node, BODY)); SAY("%c%d ReadItem\n"); body = found; READS(0); goto WriteHead };
WriteHead: atomic { STORE(HEAD, node + 1); SAY("%c%d WriteObject\n"); node = 0; goto WriteTaken };
WriteTaken: atomic { STORE(TAKEN, place + 1); SAY("%c%d WriteObject\n"); goto AddPassed };
AddPassed: atomic { ADD(ITEM(dummy, PASSED), 1); SAY("%c%d AddPassed\n"); DECIDES(GOT, place, tag, body, 0); dummy = 0;
  goto WriteAnswer_Got };
WriteAnswer_Got: atomic { STORE(NODE(at, RET), 16 + place); SAY("%c%d WriteAnswer\n"); goto WriteAnswerTag };
WriteAnswerTag: atomic { STORE(NODE(at, TAG), tag); SAY("%c%d WriteAnswer\n"); goto WriteAnswerBody };
WriteAnswerBody: atomic { STORE(NODE(at, BODY), body); SAY("%c%d WriteAnswer\n"); place = 0; tag = 0; body = 0;
  goto MarkDone }
}

init {
  atomic { OPENS() };
  CHECKED
}
