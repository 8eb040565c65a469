//! The first put: a pool of 100 nodes in a file of a temporary folder, one put, one get, and what they answered.

use ombykape::{Error, PoolFile};

fn main() -> Result<(), Error> {
    let path = std::env::temp_dir().join(format!("first_put_{}.pool", std::process::id()));
    let told = first_put(&path);
    let removed = std::fs::remove_file(&path);
    told?;
    Ok(removed?)
}

fn first_put(path: &std::path::Path) -> Result<(), Error> {
    let mut pool = PoolFile::create(path, 100)?;
    println!("flushes reach: {:?}", pool.reach());
    println!("put 7 70: {:?}", pool.put(7, 70)?);
    println!("get 7: {:?}", pool.get(7)?);
    println!("get 8: {:?}", pool.get(8)?);
    println!("check: {:?}", pool.check()?);
    pool.close()
}
