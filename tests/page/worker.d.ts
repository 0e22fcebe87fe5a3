// For the compiler alone: what a service worker has.

declare const clients: { claim(): Promise<void> };
declare function skipWaiting(): Promise<void>;
declare function addEventListener(kind: string, listener: (event: any) => void): void;
