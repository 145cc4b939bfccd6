@setup
-- There is nothing yet, so each of these statements is read, and refused.
select a from t;
select t.a as b, sum(a) c, count(*) from t x;
select count(1), count(-1), sum(t.a * b), avg(a), min(a), max(x.a) from t;
select rowid, t.rowid, dbms_mview.pmarker(t.rowid), dbms_mview.pmarker(rowid) from t;
select a from t, u v join w on t.a = w.b inner join x y on (x.a = v.b), z;
select a from t where a <> -1 and b != 'x' and c <= 2 and d < 3 and e >= 4 and f > 5;
select a from t where a between -1 and 'z' and t.a = u.b and b in (1, 'x') and c is null and d is not null;
select a from t group by a, t.b having sum(a) >= 2 and count(*) = 1 order by 1 desc, a asc, t.b, sum(a) desc;
select a from t where b = 'it''s';
insert into t values (1, null), ('x');
insert into t (a, b) values (1, -2);
update t set a = 1, b = b + 2, c = d - 3 where a = 1 and b is null;
delete from t where a in (1, 2);
delete t;
@load t
1,2
@endload
begin; update t set a = null; delete t; commit;
create table t (a number not null, b varchar2(4) constraint k primary key, c number(3) unique references u);
create table t (a number, constraint p primary key (a), unique (a), constraint f foreign key (a) references u (b) rely disable novalidate, foreign key (a) references u enable validate);
create materialized view v as select a from t;
create materialized view v build immediate refresh complete on demand disable query rewrite as select a from t;
create materialized view v build deferred refresh force enable query rewrite as select a from t order by 1;
alter materialized view v enable query rewrite;
alter materialized view v disable query rewrite;
drop materialized view v;
unregister materialized view v;
show view v;
exec dbms_mview.refresh('v', 'c');
execute dbms_mview . refresh ( 'V_1$#' , 'C' );
begin; commit;
@end
