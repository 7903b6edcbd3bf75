// What the modules of the page have that no file of script/ declares, for the type checker.
declare const PespModule: typeof import('./module.js');
declare const PESPBENCH_MODULE: string;
declare const DecompressionStream: any;
declare const CompressionStream: any;
declare const FileReaderSync: any;
interface Window { CompressionStream: any; Page: any }
