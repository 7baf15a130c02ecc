package sunwaket

import (
	"container/list"
	"crypto/sha256"
	"encoding/hex"
	"encoding/json"
	"sync"
)

// Documents is a store of persisted queries, the texts of their SHA-256. IsClosed says that nothing but what it has is answered.
type Documents interface {
	Get(sum string) (string, bool)
	Put(sum, text string)
	IsClosed() bool
}

// kept has values by keys that together have at most so much room: the least recently used goes first.
type kept[V any] struct {
	lock       sync.Mutex
	room, size int
	sizeOf     func(V) int
	order      *list.List
	places     map[string]*list.Element
}

type entry[V any] struct {
	key   string
	value V
}

func newKept[V any](room int, sizeOf func(V) int) *kept[V] {
	return &kept[V]{room: room, sizeOf: sizeOf, order: list.New(), places: map[string]*list.Element{}}
}

func (k *kept[V]) get(key string) (V, bool) {
	k.lock.Lock()
	defer k.lock.Unlock()
	place, has := k.places[key]
	if !has {
		var none V
		return none, false
	}
	k.order.MoveToFront(place)
	return place.Value.(entry[V]).value, true
}

func (k *kept[V]) put(key string, value V) {
	k.lock.Lock()
	defer k.lock.Unlock()
	if _, has := k.places[key]; has {
		return
	}
	k.places[key] = k.order.PushFront(entry[V]{key, value})
	k.size += k.sizeOf(value)
	for k.size > k.room && k.order.Len() > 0 {
		last := k.order.Remove(k.order.Back()).(entry[V])
		delete(k.places, last.key)
		k.size -= k.sizeOf(last.value)
	}
}

// MemoryDocuments keeps texts in memory, in all at most so many bytes.
type MemoryDocuments struct{ kept *kept[string] }

// NewMemoryDocuments gives an empty store.
func NewMemoryDocuments(room int) *MemoryDocuments {
	return &MemoryDocuments{newKept(room, func(text string) int { return 2*len(text) + 400 })}
}

// Get gives the text of a sum.
func (m *MemoryDocuments) Get(sum string) (string, bool) { return m.kept.get(sum) }

// Put keeps a text.
func (m *MemoryDocuments) Put(sum, text string) { m.kept.put(sum, text) }

// IsClosed is false.
func (m *MemoryDocuments) IsClosed() bool { return false }

// ListedDocuments has the texts that are listed, and no other.
type ListedDocuments map[string]string

// NewListedDocuments gives a store of these texts.
func NewListedDocuments(texts ...string) ListedDocuments {
	made := ListedDocuments{}
	for _, text := range texts {
		made[sumOf(text)] = text
	}
	return made
}

// Get gives the text of a sum.
func (l ListedDocuments) Get(sum string) (string, bool) { text, has := l[sum]; return text, has }

// Put adds nothing.
func (l ListedDocuments) Put(string, string) {}

// IsClosed is true.
func (l ListedDocuments) IsClosed() bool { return true }

func sumOf(text string) string {
	sum := sha256.Sum256([]byte(text))
	return hex.EncodeToString(sum[:])
}

// named gives the sum that a request names, or none.
func named(it asked) (string, *Fault) {
	given, has := it.extensions["persistedQuery"]
	if !has {
		return "", nil
	}
	var read struct {
		Version    int    `json:"version"`
		Sha256Hash string `json:"sha256Hash"`
	}
	sum, err := []byte(nil), json.Unmarshal(given, &read)
	if err == nil {
		sum, err = hex.DecodeString(read.Sha256Hash)
	}
	if err != nil || read.Version != 1 || len(sum) != sha256.Size || hex.EncodeToString(sum) != read.Sha256Hash {
		return "", wrong("`persistedQuery` is no version 1 with a `sha256Hash` of 64 digits")
	}
	return read.Sha256Hash, nil
}

func notKnown(documents Documents) *Fault {
	if documents.IsClosed() {
		return &Fault{Status: 403, Message: "only listed queries are answered", Code: "QUERY_NOT_LISTED"}
	}
	return &Fault{Message: "PersistedQueryNotFound", Code: "PERSISTED_QUERY_NOT_FOUND"}
}

// textOf gives the text that is asked, where it is known, listed, and of the sum that is named.
func textOf(documents Documents, it asked) (string, *Fault) {
	if documents == nil {
		if it.query == nil {
			return "", &Fault{Message: "PersistedQueryNotSupported", Code: "PERSISTED_QUERY_NOT_SUPPORTED"}
		}
		return *it.query, nil
	}
	sum, fault := named(it)
	if fault != nil {
		return "", fault
	}
	if it.query == nil {
		text, has := documents.Get(sum)
		if !has || sumOf(text) != sum {
			return "", notKnown(documents)
		}
		return text, nil
	}
	if documents.IsClosed() {
		if _, has := documents.Get(sumOf(*it.query)); !has {
			return "", notKnown(documents)
		}
	}
	if sum != "" && sum != sumOf(*it.query) {
		return "", wrong("the query has another SHA-256 than the one that is named")
	}
	return *it.query, nil
}
