--  Handlers do not cover the declarations of their own part, and nothing else is around the main procedure.
with Ada.Finalization; with Ada.Text_IO;
procedure Main is
   Full : exception;
   type Gauge is new Ada.Finalization.Controlled with record Level : Integer := 3; end record;
   overriding procedure Initialize (Object : in out Gauge);
   overriding procedure Finalize (Object : in out Gauge);
   procedure Initialize (Object : in out Gauge) is
   begin
      loop
         Object.Level := Object.Level + 1;
         if Object.Level = 5 then raise Full; end if;
      end loop;
   exception
      when Full => Ada.Text_IO.Put_Line ("full"); raise Full;
   end Initialize;
   procedure Finalize (Object : in out Gauge) is
   begin Ada.Text_IO.Put_Line ("not finalized"); end Finalize;
   G : Gauge;
begin
   null;
exception
   when Full => Ada.Text_IO.Put_Line ("not here");
end Main;
